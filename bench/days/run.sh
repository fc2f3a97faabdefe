#!/usr/bin/env bash
# Counts the instructions of the built program, with its start, by callgrind:
# - on a day of 24 hours of the 13-node feeder with its regulators, each load with a shape of 1, for each round, beside
#   one snapshot of it, and how much memory 2 and 48 hours take;
# - on a day of it whose loads follow a shape of 24 points that all differ, and on a year of it, beside the day, with
#   the memory of both;
# - on many banks with controls, beside the same with controls off.
# Counts don't change from run to run. Needs `valgrind`, GNU `time` and the built program.
set -eu
here=$(cd "$(dirname "$0")" && pwd)
top=$(cd "$here/../.." && pwd)
binary=$("$top/tools/built" feeder)
work=$(mktemp -d)
trap 'rm -rf "$work"' EXIT
python3 - "$binary" "$top" "$work" <<'P'
import pathlib, re, subprocess, sys
binary, top, work = sys.argv[1], pathlib.Path(sys.argv[2]), pathlib.Path(sys.argv[3])

def count(name, script):
    (work / f"{name}.dss").write_text(script)
    done = subprocess.run(["valgrind", "--tool=callgrind", "--callgrind-out-file=/dev/null", binary, "solve", work / f"{name}.dss"],
                          stdout=subprocess.PIPE, stderr=subprocess.PIPE, text=True)
    assert done.returncode == 0, done.stderr
    return int(re.search(r"Collected : (\d+)", done.stderr).group(1)), len(re.findall(r"^solution,", done.stdout, re.M))

def memory(name, script):
    (work / f"{name}.dss").write_text(script)
    done = subprocess.run(["/usr/bin/time", "-f", "%M", binary, "solve", work / f"{name}.dss"], stdout=subprocess.DEVNULL, stderr=subprocess.PIPE, text=True)
    return int(done.stderr)

script = (top / "examples/thirteen-regulated.dss").read_text()
before = script.rpartition("Solve")[0]
loads = re.findall(r"(?im)^New Load\.(\S+)", script)
day = before + f"New Loadshape.s npts=24 mult=({' '.join(['1'] * 24)})\n" + "".join(f"Load.{load}.daily=s\n" for load in loads)
snapshot, rounds = count("snapshot", script)
hours, all_rounds = count("day", day + "Solve mode=daily\n")
ratio = hours / all_rounds / (snapshot / rounds)
print(f"13-node feeder: a day {hours} instructions in {all_rounds} rounds, a snapshot {snapshot} in {rounds}, a round of the day {ratio:.3f} of one of the snapshot")
print(f"memory: 2 hours {memory('two', day + 'Solve mode=daily number=2')} KB, 48 hours {memory('many', day + 'Solve mode=daily number=48')} KB")
points = "0.60 0.58 0.57 0.56 0.55 0.62 0.70 0.78 0.82 0.85 0.87 0.88 0.89 0.90 0.91 0.93 0.96 1.00 0.99 0.97 0.94 0.86 0.76 0.67"
shaped = before + f"New Loadshape.s npts=24 mult=({points})\n" + "".join(f"Load.{load}.daily=s\n" for load in loads)
one, in_one = count("shaped", shaped + "Solve mode=daily\n")
year, in_year = count("year", shaped + "Solve mode=daily number=8760\n")
print(f"a day by a shape of 24 points {one} instructions in {in_one} rounds, a year {year} in {in_year}, {year / one:.2f} days")
print(f"memory: the day {memory('shaped', shaped + 'Solve mode=daily')} KB, the year {memory('year', shaped + 'Solve mode=daily number=8760')} KB")
for n in (1000, 2000, 4000):
    lines = ["New Circuit.c basekv=1 phases=1 r1=0 x1=0.5 r0=0 x0=0.5", "New Line.l phases=1 bus1=sourcebus.1 bus2=b.1 r1=0 x1=0.5 r0=0 x0=0.5"]
    for i in range(n):
        lines.append(f"New Capacitor.{i} phases=1 bus1=b.1 kv=1 kvar=0.001 states=[0]")
        lines.append(f"New CapControl.{i} element=line.l terminal=2 capacitor={i} type=voltage ptratio=10 onsetting=90 offsetting=120")
    banks = "\n".join(lines)
    off, on = count("off", banks + "\nSet controlmode=off\nSolve\n")[0], count("on", banks + "\nSolve\n")[0]
    print(f"{n} banks with controls: {on} instructions, with controls off {off}")
P
