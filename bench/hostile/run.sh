#!/usr/bin/env bash
# Runs the program on large and ill-meant input: certificates of one byte repeated, one that announces a large
# network, scripts of the greatest length, and what such a script makes grow. Prints for each the bytes of its files,
# the processor time, the peak of memory above that of an empty script, and how it ended. Ends with status 1 where one
# passes its limits: a second for each 20 MB and 2 bytes of memory for each byte, beside a tenth of a second and 4 MB;
# what stands beside a case where its limits are others. A second word that is a number runs the chain of so many
# lines besides. Needs GNU `time` and the built program, or another's path as the first word.
set -eu
here=$(cd "$(dirname "$0")" && pwd)
binary=${1:-$("$here/../../tools/built" feeder)}
work=$(mktemp -d)
trap 'rm -rf "$work"' EXIT
python3 - "$(realpath "$binary")" "$work" "${2:-}" <<'P'
import itertools, pathlib, subprocess, sys
binary, work = sys.argv[1], pathlib.Path(sys.argv[2])
MEBIBYTE = 1 << 20
SMALL = """Clear
New Circuit.h basekv=1 phases=1 r1=1 x1=0 r0=1 x0=0
New Line.l phases=1 bus1=sourcebus.1 bus2=b.1 r1=9 x1=0 r0=9 x0=0
New Load.d phases=1 bus1=b.1 kv=1 kw=100 model=2 kvar=0 vminpu=0.85
Solve
"""

def ran(words, files):
    """The status, the start of the text, the processor seconds and the peak of memory in bytes."""
    for name, bytes in files.items():
        (work / name).write_bytes(bytes)
    with open(work / "output", "wb") as output:
        timed = ["/usr/bin/time", "-f", "%U %S %M", binary, *words]
        done = subprocess.run(timed, cwd=work, stdout=output, stderr=subprocess.PIPE, text=True)
    user, system, peak = done.stderr.split("\n")[-2].split()
    with open(work / "output", "rb") as output:
        text = output.read(60).decode().split("\n")[0]
    for name in files:
        (work / name).unlink()
    return done.returncode, text, float(user) + float(system), int(peak) * 1024

def check(certificate):
    return ["check", "m.dss", "c.crt"], {"m.dss": SMALL.encode(), "c.crt": certificate}

def solve(*lines, **files):
    script = "".join(f"{line}\n" for line in lines).encode()
    named = {name.replace("_", "."): it for name, it in files.items()}
    return ["solve", "m.dss"], {"m.dss": script, **named}

def announced():
    """A block of 20,000 unknowns, as many lines of states as 600 kB hold."""
    lines = "".join(f"x {place} 950000000123456 1000 100\n" for place in range(20_000))
    return ("cert 1\nsolution 1 0 0 20000\n" + lines)[:600_000].encode()

def elements(most):
    """As many elements as a script of this length holds."""
    letters = "abcdefghijklmnopqrstuvwxyz0123456789"
    names = ("".join(it) for n in (1, 2, 3) for it in itertools.product(letters, repeat=n))
    lines, length = ["New Circuit.c"], len("New Circuit.c\nSolve\n")
    for kind, name in ((kind, name) for name in names for kind in ("Load", "Line")):
        line = f"New {kind}.{name}"
        if length + len(line) + 1 > most:
            break
        lines.append(line)
        length += len(line) + 1
    return lines + ["Solve"]

def redirects():
    """Eight files deep, each asking the next one eight times."""
    files = {f"a{k}.dss": f"Redirect a{k + 1}.dss\n".encode() * 8 for k in range(1, 7)}
    return ["solve", "m.dss"], {"m.dss": b"Redirect a1.dss\n" * 8, **files, "a7.dss": b"! a line\n" * 12}

def chain(lines):
    """Lines one behind another, the one that is farthest from the source first, and their voltage bases."""
    made = [f"New Line.{k} bus1=b{k} bus2=b{k + 1}" for k in range(lines - 1, -1, -1)]
    return solve("New Circuit.c bus1=b0", *made, "Set voltagebases=[115]", "CalcV")

def shape(bytes):
    return solve("New Circuit.c", "New Loadshape.s npts=24 mult=(file=s.csv)", s_csv=b"1\n" * (bytes // 2))

def limits(size, seconds=None, each=2):
    """The most processor seconds and bytes of memory for files of this size."""
    return seconds or 0.1 + size / 20e6, 4e6 + each * size

# A script's elements take memory by their number, a chain's bases by its lines, and a load shape's numbers 16 bytes each.
CASES = [
    ("a certificate of 50 MB of zeros", *check(b"0" * 50_000_000), {}),
    ("a certificate of 50 MB of digits", *check(b"1234567890" * 5_000_000), {}),
    ("a certificate of 50 MB of line feeds", *check(b"\n" * 50_000_000), {}),
    ("a certificate that announces 20,000 unknowns", *check(announced()), {}),
    ("a script in lines of 65,536 bytes", *solve(*["!" + "x" * 65_534] * 15, "New Circuit.c"), {}),
    ("a script of as many elements as it holds", *solve(*elements(MEBIBYTE)), {"seconds": 1, "each": 80}),
    ("redirects eight deep", *redirects(), {"seconds": 1}),
    ("the voltage bases of a chain of 2,000 lines", *chain(2_000), {"each": 40}),
    ("the voltage bases of a chain of 4,000 lines", *chain(4_000), {"each": 40}),
    ("the voltage bases of a chain of 8,000 lines", *chain(8_000), {"each": 40}),
    ("a load shape's file of 4 MB", *shape(4_000_000), {"seconds": 2, "each": 4}),
    ("a load shape's file of 8 MB", *shape(8_000_000), {"seconds": 4, "each": 4}),
]
if sys.argv[3]:
    lines = int(sys.argv[3])
    CASES.append((f"the voltage bases of a chain of {lines:,} lines", *chain(lines), {"each": 40}))
_, _, _, least = ran(*solve())
past = 0
for name, words, files, own in CASES:
    status, text, seconds, memory = ran(words, files)
    size = sum(map(len, files.values()))
    most_seconds, most_memory = limits(size, **own)
    is_past = seconds > most_seconds or memory - least > most_memory
    past += is_past
    print(f"{name}: {size:,} bytes, {seconds:.2f} s of at most {most_seconds:.2f}, {(memory - least) / 1e6:.1f} MB "
          f"of at most {most_memory / 1e6:.1f}; status {status}, {text!r}{', PAST A LIMIT' if is_past else ''}",
          flush=True)
print(f"{len(CASES) - past} of {len(CASES)} within their limits")
sys.exit(past > 0)
P
