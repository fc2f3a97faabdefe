#!/usr/bin/env bash
# Counts the instructions of the picture's built program, with its start, by callgrind: on the report of examples/day.dss, and on reports of
# so many hours of the 13-node feeder with its regulators, each the rounds of examples/thirteen-regulated.out.
# Counts don't change from run to run. Needs `valgrind` and the built program.
set -eu
here=$(cd "$(dirname "$0")" && pwd)
top=$(cd "$here/../.." && pwd)
binary=$("$top/tools/built" feeder_picture)
work=$(mktemp -d)
trap 'rm -rf "$work"' EXIT
python3 - "$binary" "$top" "$work" <<'P'
import pathlib, re, subprocess, sys
binary, top, work = sys.argv[1], pathlib.Path(sys.argv[2]), pathlib.Path(sys.argv[3])

def count(name, report):
    path = work / "report.csv"
    path.write_text(report)
    done = subprocess.run(["valgrind", "--tool=callgrind", "--callgrind-out-file=/dev/null", binary, path], stdout=subprocess.PIPE, stderr=subprocess.PIPE, text=True)
    assert done.returncode == 0, done.stderr
    n = int(re.search(r"Collected : (\d+)", done.stderr).group(1))
    print(f"{name}: {len(report)} bytes, {n} instructions, {n / len(report):.0f} a byte")

count("the day of examples/day.dss", (top / "examples/day.out").read_text())
hour = (top / "examples/thirteen-regulated.out").read_text()
nodes = dict.fromkeys(re.findall(r"(?m)^node,([^.]*)\.", hour))
bases = "".join(f"base,{bus},4.160000\n" for bus in nodes)
for hours in (24, 48, 96):
    count(f"{hours} hours of the 13-node feeder", bases + "".join(re.sub(r"(?m)^solution,1,0", f"solution,{k},{k}", hour) for k in range(1, hours + 1)))
P
