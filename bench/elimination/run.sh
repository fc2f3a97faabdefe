#!/usr/bin/env bash
# Times `invert` beside the same elimination in plain Rust: in the same design (same_design.rs) on the matrices of matrices/ and on full ones of
# 168 and of 528 unknowns, and walking all places in 128 bits (plain.rs) on the full ones. Needs `rt` and `rustc`. Prints, for each matrix, the
# least time of the rounds of each program, the ratios, and whether all found the same inverse.
# `run.sh N` makes N rounds, by turns; 5 unless said.
set -eu
here=$(cd "$(dirname "$0")" && pwd)
top=$(cd "$here/../.." && pwd)
work=$(mktemp -d)
trap 'rm -rf "$work"' EXIT

mkdir -p "$work/crates/elimination_timing/src"
for crate in fd_exact fd_items fd_arith fd_mat fd_inverse; do
  mkdir "$work/crates/$crate"
  (cd "$top/crates/$crate" && tar cf - --exclude=./out .) | (cd "$work/crates/$crate" && tar xf -)
done
cp "$here/main.rt.txt" "$work/crates/elimination_timing/src/main.rt"
cat > "$work/crates.txt" <<'LINES'
fd_exact:
fd_items:
fd_arith: fd_items fd_exact
fd_mat: fd_exact
fd_inverse: fd_exact fd_arith fd_mat
elimination_timing: fd_mat fd_inverse
LINES

(cd "$work/crates/elimination_timing" && rt run > "$work/first" 2> "$work/build.log" < /dev/null) || { cat "$work/build.log"; exit 1; }
rustc -O -o "$work/same" "$here/same_design.rs"
rustc -O -o "$work/plain" "$here/plain.rs"
python3 - "$work" "$here/matrices" "${1:-5}" <<'P'
import pathlib, subprocess, sys
work, matrices, rounds = pathlib.Path(sys.argv[1]), pathlib.Path(sys.argv[2]), int(sys.argv[3])
files = sorted(matrices.glob("*.txt"))
text = b"".join(f.read_bytes() for f in files)
names = [f.stem.replace("_", " ") for f in files] + ["full 168", "full 528"]
proved = work / "crates/elimination_timing/out/elimination_timing"
times = {"proved": {}, "same design": {}, "dense": {}}
found = {}

def take(program, path, which):
    lines = subprocess.run([path], input=text, stdout=subprocess.PIPE, check=True).stdout.decode().splitlines()
    assert len(lines) == len(which), (program, lines)
    for name, line in zip(which, lines):
        size, microseconds, mixed = line.split()
        times[program][name] = min(times[program].get(name, 10**12), int(microseconds))
        found.setdefault(name, set()).add((size, mixed))

for _ in range(rounds):
    take("proved", proved, names)
    take("same design", work / "same", names)
    take("dense", work / "plain", names[-2:])
for name in names:
    a, b, c = times["proved"][name], times["same design"][name], times["dense"].get(name)
    all_places = f", all places {c / 1e3:.2f} ms, ratio {a / c:.2f}" if c else ""
    print(f"{name}: proved {a / 1e3:.2f} ms, same design {b / 1e3:.2f} ms, ratio {a / b:.2f}{all_places}, {'same inverse' if len(found[name]) == 1 else 'DIFFERENT inverses'}")
P
