#!/usr/bin/env bash
# Times a million interval products and sums, as rt builds them by LLVM and as `rustc -O` builds the same work, and
# prints the least time of two hundred rounds of each, taken in turn, whether both gave the same ends, and the ratio.
set -eu
here=$(cd "$(dirname "$0")" && pwd)
top=$(cd "$here/../.." && pwd)
work=$(mktemp -d)
trap 'rm -rf "$work"' EXIT
mkdir -p "$work/crates"
cp -r "$top/crates/fd_exact" "$top/crates/fd_items" "$top/crates/fd_arith" "$work/crates/"
cd "$work"
mkdir -p crates/bench_interval/src
cp "$here/main.rt.txt" crates/bench_interval/src/main.rt
printf 'fd_exact:\nfd_items:\nfd_arith: fd_items fd_exact\nbench_interval: fd_arith fd_exact\n' >crates.txt
(cd crates/bench_interval && rt run) >rattle.log 2>&1 || { cat rattle.log; exit 1; }
rustc -O -o plain "$here/plain.rs" 2>/dev/null
for _ in 1 2 3 4 5; do
  crates/bench_interval/out/bench_interval >>rattle.txt
  ./plain >>plain.txt
done
python3 - rattle.txt plain.txt <<'P'
import re, sys
row = re.compile(r"^(\d+) ((?:-?\d+ -?\d+)|all)$")
def read(name):
    rows = [m.groups() for m in (row.match(line.strip()) for line in open(name)) if m]
    return min(int(t) for t, _ in rows), [ends for _, ends in rows]
rattle, ours = read(sys.argv[1])
plain, theirs = read(sys.argv[2])
assert ours and ours == theirs, "the two give different ends"
print(f"a million products and sums: rattle {rattle / 1e6:.2f} ms, plain {plain / 1e6:.2f} ms, ratio {rattle / plain:.2f}; same ends")
P
