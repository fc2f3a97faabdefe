#!/usr/bin/env bash
# Measures ladder sweeps:
# - in instructions by callgrind, which don't change from run to run: the sweep beside the solution of the generated feeder of 39 sections,
#   with its order and its table, of all that the same Solve takes without it, and of that of examples/ieee34.dss;
# - in time, the order of radial circuits of 1,000 and 10,000 lines, of which no network is built (main.rt.txt), as LLVM builds it.
# Needs `valgrind` and the built program, and `rt` for the second. `run.sh sweeps` makes the first alone, `run.sh orders` the second.
set -eu
here=$(cd "$(dirname "$0")" && pwd)
top=$(cd "$here/../.." && pwd)
work=$(mktemp -d)
trap 'rm -rf "$work"' EXIT
which=${1:-both}

if [ "$which" != orders ]; then
  binary=$("$top/tools/built" feeder)
  "$binary" gen 7 39 > "$work/gen.dss"
  echo Solve >> "$work/gen.dss"
  cp "$top/examples/ieee34.dss" "$top/examples/ieee34-feeder.dss" "$work"
  python3 - "$binary" "$work" <<'P'
import pathlib, re, subprocess, sys
binary, work = sys.argv[1], pathlib.Path(sys.argv[2])

def count(word, script):
    out = work / f"{word}.callgrind"
    done = subprocess.run(["valgrind", "--tool=callgrind", f"--callgrind-out-file={out}", binary, word, work / script],
                          stdout=subprocess.PIPE, stderr=subprocess.PIPE, text=True)
    assert done.returncode == 0, done.stderr + done.stdout[-300:]
    return int(re.search(r"Collected : (\d+)", done.stderr).group(1)), out, done.stdout

# What is spent in a function of fd_sweep with all that it calls, by the calls from outside the crate.
def spent(out, of):
    names, total, caller, callee, counted = {}, 0, None, None, False
    for line in out.read_text().splitlines():
        if named := re.match(r"(c?fn)=\((\d+)\)(?: (.*))?$", line):
            name = names.setdefault(named[2], named[3])
            caller, callee = (name, callee) if named[1] == "fn" else (caller, name)
        elif line.startswith("calls="):
            counted = True
        elif counted and (cost := re.match(r"[\d+*-]\S* (\d+)$", line)):
            total += int(cost[1]) if re.match(of, callee) and not re.match(of, caller) else 0
            counted = False
    return total

for script in ("gen.dss", "ieee34.dss"):
    solved, _, _ = count("solve", script)
    swept, out, text = count("ladder", script)
    record = text.splitlines()[-1]
    sweep = spent(out, "fd_sweep::")
    print(f"{script}: {record}; solved in {solved} instructions, with a sweep in {swept}, of which the sweep takes {sweep}: {sweep / solved:.3%} of the solution, "
          f"and all that stands beside it {(swept - solved) / solved:.3%}")
P
fi

if [ "$which" != sweeps ]; then
  program=ladder_timing
  python3 - "$top" "$work" $program dss_commands dss_script fd_ladder <<'P'
import pathlib, re, shutil, sys
top, work, program, *names = pathlib.Path(sys.argv[1]), pathlib.Path(sys.argv[2]), *sys.argv[3:]
lines = dict(re.findall(r"^([a-z_0-9]+)[^:\n#]*:(.*)$", (top / "crates.txt").read_text(), re.M))
due, found = list(names), []
while due:
    name = due.pop()
    if name in lines and name not in found:
        found.append(name)
        due += lines[name].split()
for name in found:
    shutil.copytree(top / "crates" / name, work / "crates" / name, ignore=shutil.ignore_patterns("out"))
(work / "crates" / program / "src").mkdir(parents=True)
shutil.copy(top / "bench/ladder/main.rt.txt", work / "crates" / program / "src/main.rt")
kept = [it for it in (top / "crates.txt").read_text().splitlines() if it.split(":")[0].split(" ")[0] in found]
(work / "crates.txt").write_text("".join(f"{it}\n" for it in kept) + f"{program}: {' '.join(names)} indexmap\n")
P
  (cd "$work/crates/$program" && ${RT:-rt} ${TRY:-run} 2> "$work/build.log" < /dev/null) || { cat "$work/build.log"; exit 1; }
fi
