#!/usr/bin/env bash
# Refuses each request for memory of the program in turn, one in a run, for three cases of crates/feeder_rows: a solve
# with an act, a day with a shape in a file, and a check. Each such run must end with status 1 and a front of the
# case's bytes, or with the case's own status and all of its bytes. Prints for each case how many requests were
# refused and how the runs ended. Needs `cc` and the built program, or another's path as the first word.
set -eu
here=$(cd "$(dirname "$0")" && pwd)
top=$(cd "$here/../.." && pwd)
binary=${1:-$("$top/tools/built" feeder)}
work=$(mktemp -d)
trap 'rm -rf "$work"' EXIT
cc -O2 -shared -fPIC -o "$work/refuse.so" "$here/refuse.c"
python3 - "$(realpath "$binary")" "$top/crates/feeder_rows/data" "$work" <<'P'
import concurrent.futures, os, pathlib, subprocess, sys, time
binary, data, work = sys.argv[1], pathlib.Path(sys.argv[2]), pathlib.Path(sys.argv[3])
CASES = [
    ("regulated.rows", "a regulator that raises its tap by six steps"),
    ("days.rows", "a day of a bank with a shape in a file"),
    ("checks.rows", "a certificate is accepted"),
]

def case(rows, name):
    """The words, the files, the status and the text of a case whose files and text are lines as they stand."""
    words, files, status, text, into, is_ours = [], {}, 0, [], None, False
    for line in (data / rows).read_text().splitlines():
        first, _, rest = line.partition(" ")
        if first == "case":
            is_ours = rest == name
        elif is_ours and first == "word":
            words.append(rest)
        elif is_ours and first == "file":
            into = files.setdefault(rest, [])
        elif is_ours and first == "status":
            status, into = int(rest), text
        elif is_ours and line.startswith("|"):
            into.append(line[1:] + "\n")
        else:
            assert not is_ours or not line or line.startswith(("#", "each ")), line
    return words, files, status, "".join(text).encode()

def ran(words, folder, refused, requests=None):
    environment = {**os.environ, "LD_PRELOAD": str(work / "refuse.so"), "REFUSED_REQUEST": str(refused)}
    if requests:
        environment["REQUESTS_FILE"] = str(requests)
    done = subprocess.run([binary, *words], cwd=folder, env=environment, capture_output=True, timeout=60)
    return done.returncode, done.stdout

wrong = 0
for number, (rows, name) in enumerate(CASES):
    words, files, status, text = case(rows, name)
    folder = work / str(number)
    folder.mkdir()
    for file, lines in files.items():
        (folder / file).write_text("".join(lines))
    start = time.perf_counter()
    assert ran(words, folder, 0, work / "requests") == (status, text), f"{name}: not its own bytes"
    requests = int((work / "requests").read_text())
    with concurrent.futures.ThreadPoolExecutor(os.cpu_count()) as pool:
        runs = list(pool.map(lambda refused: ran(words, folder, refused), range(1, requests + 1)))
    short = [(k, it) for k, it in enumerate(runs, 1) if it[0] == 1 and text.startswith(it[1])]
    whole = [(k, it) for k, it in enumerate(runs, 1) if it == (status, text)]
    fronts = len({len(it[1]) for _, it in short})
    for k, it in enumerate(runs, 1):
        if it != (status, text) and not (it[0] == 1 and text.startswith(it[1])):
            wrong += 1
            print(f"{name}, request {k}: status {it[0]} and {it[1][-80:]!r}")
    took = time.perf_counter() - start
    print(f"{name}: {requests} requests refused in turn, in {took:.1f} s; {len(short)} runs ended with status 1, behind "
          f"{fronts} different fronts of its bytes, {len(whole)} with status {status} and all of them")
sys.exit(wrong > 0)
P
