#!/usr/bin/env bash
# Counts the inverses that the built program makes on a day of 24 hours whose powers repeat every two hours and whose bank
# switches in each but the first: 47 rounds at 4 networks, and so 8 inverses, two for each network. A program that is
# named in its place is counted in place of the built one. Counts don't change from run to run. Needs `valgrind`.
set -eu
here=$(cd "$(dirname "$0")" && pwd)
top=$(cd "$here/../.." && pwd)
binary=${1-$("$top/tools/built" feeder)}
work=$(mktemp -d)
trap 'rm -rf "$work"' EXIT
cat >"$work/day.dss" <<'S'
New Circuit.c basekv=1 phases=1 r1=0 x1=0.5 r0=0 x0=0.5
New Line.l phases=1 bus1=sourcebus.1 bus2=b.1 r1=0 x1=0.5 r0=0 x0=0.5
New Loadshape.s npts=2 interval=1 mult=(1 0.1)
New Load.d phases=1 bus1=b.1 kv=1 kw=0 kvar=100 model=2 daily=s
New Capacitor.k phases=1 bus1=b.1 kv=1 kvar=50
New CapControl.k element=line.l terminal=2 capacitor=k type=voltage ptratio=10
~ onsetting=92 offsetting=102 deadtime=4000
Solve mode=daily number=24
S
python3 - "$binary" "$work" <<'P'
import pathlib, re, subprocess, sys
binary, work = sys.argv[1], pathlib.Path(sys.argv[2])
done = subprocess.run(["valgrind", "--tool=callgrind", f"--callgrind-out-file={work / 'calls'}", binary, "solve", work / "day.dss"],
                      stdout=subprocess.PIPE, stderr=subprocess.PIPE, text=True)
assert done.returncode == 0, done.stderr
calls = (work / "calls").read_text()
number = re.search(r"\((\d+)\) fd_inject::ranges::inverse$", calls, re.M)
assert number, "the program has no function fd_inject::ranges::inverse of its own"
made = sum(int(n) for n in re.findall(rf"^cfn=\({number.group(1)}\).*\ncalls=(\d+) ", calls, re.M))
rounds = len(re.findall(r"^solution,", done.stdout, re.M))
print(f"{made} inverses in {rounds} rounds")
P
