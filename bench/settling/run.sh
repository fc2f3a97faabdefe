#!/usr/bin/env bash
# Counts the instructions of the built program, with its start, by callgrind:
# - on the 13-node feeder with its regulators (examples/thirteen-regulated.dss), beside the sum of its rounds solved alone, with controls
#   off and the taps of each round given, of which reading the script counts once;
# - on a hundred regulators, what is spent outside the solves and certificates, network and records among it, of all that a settle takes.
# Counts don't change from run to run. Needs `valgrind` and the built program.
set -eu
here=$(cd "$(dirname "$0")" && pwd)
top=$(cd "$here/../.." && pwd)
binary=$("$top/tools/built" feeder)
work=$(mktemp -d)
trap 'rm -rf "$work"' EXIT
python3 - "$binary" "$top" "$work" <<'P'
import pathlib, re, subprocess, sys
binary, top, work = sys.argv[1], pathlib.Path(sys.argv[2]), pathlib.Path(sys.argv[3])

def count(name, script):
    (work / f"{name}.dss").write_text(script)
    out = work / f"{name}.callgrind"
    done = subprocess.run(["valgrind", "--tool=callgrind", f"--callgrind-out-file={out}", binary, "solve", work / f"{name}.dss"],
                          stdout=subprocess.PIPE, stderr=subprocess.PIPE, text=True)
    assert done.returncode == 0, done.stderr
    return int(re.search(r"Collected : (\d+)", done.stderr).group(1)), out, done.stdout

script = (top / "examples/thirteen-regulated.dss").read_text()
whole, _, text = count("whole", script)
acts = dict(re.findall(r"^act,[^,]*,regcontrol\.(\w+),[^,]*,([\d.]+)$", text, re.M))
assert text.count("\nsolution,") == 1 and len(acts) == 3, "the feeder comes to rest after one act of three regulators"
off = re.sub(r"(?im)^solve", "Set controlmode=off\nSolve", script)
moved = re.sub(r"(?im)^(new transformer\.(\w+) .*)$", lambda m: m[1] + (f" taps=[1 {acts[m[2].lower()]}]" if m[2].lower() in acts else ""), off)
reading = count("reading", re.sub(r"(?im)^solve.*$", "", off))[0]
alone = count("first", off)[0] + count("second", moved)[0] - reading
print(f"13-node feeder: {whole} instructions, its rounds alone {alone}, ratio {whole / alone:.3f}")

lines = ["New Circuit.r basekv=2.34 phases=1 r1=0.1 x1=0.1 r0=0.1 x0=0.1"]
for i in range(100):
    lines.append(f"New Transformer.t{i} phases=1 buses=[sourcebus.1 b{i}.1] kvs=[2.4 2.4] kvas=[100 100] xhl=1")
    lines.append(f"New RegControl.a{i} transformer=t{i} winding=2 vreg=122 band=2 ptratio=20 ctprim=700 r=3 x=9")
    lines.append(f"New Load.d{i} phases=1 bus1=b{i}.1 kv=2.4 kw=1 kvar=0.5")
_, out, text = count("hundred", "\n".join(lines + ["Solve"]) + "\n")

# What each function spends in each that it calls, by their names as callgrind writes them.
names, calls, caller, callee, counted = {}, {}, None, None, False
for line in out.read_text().splitlines():
    if named := re.match(r"(c?fn)=\((\d+)\)(?: (.*))?$", line):
        name = names.setdefault(named[2], named[3])
        caller, callee = (name, callee) if named[1] == "fn" else (caller, name)
    elif line.startswith("calls="):
        counted = True
    elif counted and (cost := re.match(r"[\d+*-]\S* (\d+)$", line)):
        calls[caller, callee] = calls.get((caller, callee), 0) + int(cost[1])
        counted = False

def spent(of, within=""):
    found = [cost for (caller, callee), cost in calls.items() if re.match(within, caller) and re.match(of, callee)]
    assert found, f"the program has no calls of {of}: they are inlined now"
    return sum(found)

# A settle is all that is done with a command but its reading and applying; its solves clear the memory of matrices.
settle = spent("fd_solving::solving::StandingLine::take") - spent("fd_solving::step::answer_to")
solves = spent("fd_(inject|inverse|cert|enclosure|slope|equations)::|.*memset", "fd_(solving|settle)::")
rounds = len(re.findall(r"^solution,", text, re.M))
print(f"a hundred regulators, {rounds} rounds: {settle - solves} of {settle} instructions outside solves and certificates, network and records among them, {(settle - solves) / settle:.2%}")
P
