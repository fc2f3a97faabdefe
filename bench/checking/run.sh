#!/usr/bin/env bash
# Counts the instructions of the built program, with its start, by callgrind, on the 13-node feeder of examples/ieee13.dss:
# - `check` on its certificate, beside `solve` on the script;
# - what its reader takes for a byte of a block, beside a plain reader of the same grammar by `rustc -O`, without its start;
# - `check` on certificates of 6, 12 and 24 hours of it, for each byte.
# Counts don't change from run to run. Needs `valgrind`, `rustc` and the built program.
set -eu
here=$(cd "$(dirname "$0")" && pwd)
top=$(cd "$here/../.." && pwd)
binary=$("$top/tools/built" feeder)
work=$(mktemp -d)
trap 'rm -rf "$work"' EXIT
rustc -O -o "$work/plain" "$here/plain.rs"
python3 - "$binary" "$top" "$work" <<'P'
import pathlib, re, subprocess, sys
binary, top, work = sys.argv[1], pathlib.Path(sys.argv[2]), pathlib.Path(sys.argv[3])

def count(words, text=b"", status=0):
    done = subprocess.run(["valgrind", "--tool=callgrind", f"--callgrind-out-file={work}/calls", *words], cwd=work, input=text, stdout=subprocess.PIPE, stderr=subprocess.PIPE)
    assert done.returncode == status, done.stdout.decode()
    return int(re.search(rb"Collected : (\d+)", done.stderr).group(1)), done.stdout.decode().strip()

def certify(name, script):
    (work / f"{name}.dss").write_text(script)
    text = subprocess.run([binary, "cert", f"{name}.dss"], cwd=work, stdout=subprocess.PIPE, check=True).stdout
    (work / f"{name}.crt").write_bytes(text)
    return text

script = (top / "examples/ieee13.dss").read_text()
text = certify("feeder", script)
solve = count([binary, "solve", "feeder.dss"])[0]
check, answer = count([binary, "check", "feeder.dss", "feeder.crt"])
print(f"check of {len(text)} bytes: {answer}, {check} instructions, solve {solve}, ratio {check / solve:.3f}")
# the reader: a certificate whose second block is refused at its last row, beside one that is refused at its first line
plain = count([work / "plain"], text)[0] - count([work / "plain"])[0]
lines = text.split(b"\n")
first = [k for k, line in enumerate(lines) if line.startswith(b"solution")][1] + 1
last = max(k for k, line in enumerate(lines) if line.startswith(b"c "))

def refused(k):
    (work / "refused.crt").write_bytes(b"\n".join(lines[:k] + [lines[k] + b"x"] + lines[k + 1:]))
    return count([binary, "check", "feeder.dss", "refused.crt"], status=13)[0]

size = sum(len(line) + 1 for line in lines[first:last + 1])
reader = refused(last) - refused(first)
print(f"the reader: {reader / size:.1f} instructions a byte, a plain reader {plain / len(text):.1f}, ratio {reader / size / (plain / len(text)):.2f}")
before = script[:script.lower().index("\nset voltagebases")]
loads = re.findall(r"(?im)^New Load\.(\S+)", script)
day = before + f"\nNew Loadshape.s npts=24 mult=({' '.join(['1'] * 24)})\n" + "".join(f"Load.{load}.daily=s\n" for load in loads)
for hours in (6, 12, 24):
    text = certify("day", day + f"Solve mode=daily number={hours}\n")
    check, answer = count([binary, "check", "day.dss", "day.crt"])
    print(f"{hours} hours: {answer}, {len(text)} bytes, {check} instructions, {check / len(text):.1f} a byte")
P
