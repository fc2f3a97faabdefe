#!/usr/bin/env bash
# Times `certify` beside one `invert_rows` of the same Jacobian. Each matrix of ../elimination/matrices is taken as the contributions of a network
# without part loads, at the state 0. Needs `rt`. Prints, for each matrix, the least times of the rounds and their ratio.
# `run.sh N` makes N rounds; 5 unless said.
set -eu
here=$(cd "$(dirname "$0")" && pwd)
top=$(cd "$here/../.." && pwd)
work=$(mktemp -d)
trap 'rm -rf "$work"' EXIT

program=certificate_timing
libraries="fd_exact fd_items fd_arith fd_mat fd_system fd_load fd_pattern fd_equations fd_slope fd_inverse fd_enclosure fd_cert"
mkdir -p "$work/crates/$program/src"
for crate in $libraries; do
  mkdir "$work/crates/$crate"
  (cd "$top/crates/$crate" && tar cf - --exclude=./out .) | (cd "$work/crates/$crate" && tar xf -)
done
cp "$here/main.rt.txt" "$work/crates/$program/src/main.rt"
for name in $libraries; do grep "^$name:" "$top/crates.txt"; done > "$work/crates.txt"
echo "$program: fd_exact fd_arith fd_mat fd_system fd_load fd_pattern fd_equations fd_slope fd_inverse fd_enclosure fd_cert" >> "$work/crates.txt"
while IFS= read -r line; do
  case "$line" in
    "== "*) file="$work/crates/$program/proofs/${line#== }"; mkdir -p "$(dirname "$file")"; : > "$file" ;;
    *) printf '%s\n' "$line" >> "$file" ;;
  esac
done < "$here/proofs.txt"

(cd "$work/crates/$program" && rt run > "$work/first" 2> "$work/build.log" < /dev/null) || { cat "$work/build.log"; exit 1; }
python3 - "$work" "$here/../elimination/matrices" "${1:-5}" <<'P'
import pathlib, subprocess, sys
work, matrices, rounds = pathlib.Path(sys.argv[1]), pathlib.Path(sys.argv[2]), int(sys.argv[3])
files = sorted(matrices.glob("*.txt"))
text = b"".join(f.read_bytes() for f in files)
program = work / "crates/certificate_timing/out/certificate_timing"
times = {}
for _ in range(rounds):
    lines = subprocess.run([program], input=text, stdout=subprocess.PIPE, check=True).stdout.decode().splitlines()
    assert len(lines) == len(files), lines
    for file, line in zip(files, lines):
        size, inverted, certified, what = line.split()
        old = times.get(file.stem, (10**12, 10**12, size, what))
        times[file.stem] = (min(old[0], int(inverted)), min(old[1], int(certified)), size, what)
for name, (inverted, certified, size, what) in times.items():
    print(f"{name.replace('_', ' ')}, {size} unknowns: inverted {inverted / 1e3:.2f} ms, {what.replace('_', ' ')} {certified / 1e3:.2f} ms, ratio {certified / max(inverted, 1):.3f}")
P
