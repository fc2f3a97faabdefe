#!/usr/bin/env bash
# Times the built program on the 13-node feeder (examples/thirteen.dss: read, solved and printed, its start included) beside two
# eliminations of its size, 166 unknowns, by the plain Rust of bench/elimination that walks all places, and beside Arb's rigorous inverse
# (arb_mat_inv, 80 bits) of its Jacobian at the solution. Prints the least time of the rounds of each and the ratios.
# `run.sh N` makes N rounds, by turns; 15 unless said. Needs `rustc`, the built program, and for Arb `gcc` and Debian's libflint-arb-dev.
set -eu
here=$(cd "$(dirname "$0")" && pwd)
top=$(cd "$here/../.." && pwd)
binary=$("$top/tools/built" feeder)
work=$(mktemp -d)
trap 'rm -rf "$work"' EXIT
rustc -O -o "$work/plain" "$top/bench/elimination/plain.rs"
gcc -O2 -o "$work/arb" "$here/arb_inverse.c" -lflint-arb -lflint 2> "$work/arb.log" || echo "without Arb: install libflint-arb-dev to compare with it" >&2
python3 - "$binary" "$top" "$work" "${1:-15}" <<'P'
import pathlib, subprocess, sys, time
binary, top, work, rounds = sys.argv[1], pathlib.Path(sys.argv[2]), pathlib.Path(sys.argv[3]), int(sys.argv[4])
jacobian = (top / "bench/elimination/matrices/thirteen_jacobian.txt").read_bytes()
solving, elimination, arb = [], [], []
for _ in range(rounds):
    start = time.perf_counter()
    done = subprocess.run([binary, "solve", top / "examples/thirteen.dss"], stdout=subprocess.PIPE)
    solving.append(time.perf_counter() - start)
    assert done.returncode == 0 and done.stdout.startswith(b"solution,1,0,0\n"), (done.returncode, done.stdout[:80])
    elimination.append(int(subprocess.run([work / "plain", "166"], stdout=subprocess.PIPE, check=True).stdout.split()[1]) / 1e6)
    if (work / "arb").exists():
        arb.append(int(subprocess.run([work / "arb"], input=jacobian, stdout=subprocess.PIPE, check=True).stdout.split()[1]) / 1e6)
program, two = min(solving), 2 * min(elimination)
print(f"13-node feeder: read, solved and printed {program * 1e3:.1f} ms, two eliminations {two * 1e3:.1f} ms, ratio {program / two:.2f}")
if arb:
    print(f"Arb's inverse of its Jacobian {min(arb) * 1e3:.1f} ms, ratio {program / min(arb):.2f}")
P
