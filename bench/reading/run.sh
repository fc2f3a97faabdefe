#!/usr/bin/env bash
# Times the reading of scripts without a Solve by the built program: one mebibyte with 40,000 elements, and lines of the
# same kinds with 4,000 elements. Prints the least time of each for a byte, without that of an empty script, and the ratio.
set -eu
here=$(cd "$(dirname "$0")" && pwd)
binary=$("$here/../../tools/built" feeder)
python3 - "$binary" "${1:-15}" <<'P'
import os, subprocess, sys, tempfile, time
binary, rounds = sys.argv[1], int(sys.argv[2])
kinds = ["New Load.{} kw=1", "New Line.{} r1=1", "New Capacitor.{} kv=1", "New Linecode.{} x1=1"]
def script(elements, width):
    lines = ["New Circuit.c"] + [kinds[k % len(kinds)].format(k).ljust(width) for k in range(elements - 1)]
    return ("\n".join(lines) + "\n").encode()
def least(name, folder):
    best = None
    for _ in range(rounds):
        start = time.perf_counter()
        done = subprocess.run([binary, "solve", name], cwd=folder, stdout=subprocess.PIPE)
        took = time.perf_counter() - start
        assert done.returncode == 0 and done.stdout == b"", (name, done.returncode, done.stdout[:80])
        best = took if best is None else min(best, took)
    return best
with tempfile.TemporaryDirectory() as folder:
    scripts = {"empty.dss": b"", "few.dss": script(4_000, 25), "many.dss": script(40_000, 25)}
    for name, text in scripts.items():
        open(os.path.join(folder, name), "wb").write(text)
    times = {name: least(name, folder) for name in scripts}
    byte = {name: (times[name] - times["empty.dss"]) / len(scripts[name]) * 1e9 for name in ("few.dss", "many.dss")}
    for name in byte:
        print(f"{name}: {len(scripts[name]):,} bytes, {times[name] * 1e3:.1f} ms, {byte[name]:.1f} ns for a byte")
    print(f"ratio {byte['many.dss'] / byte['few.dss']:.2f}")
P
