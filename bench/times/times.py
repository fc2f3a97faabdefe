"""times.py FEEDER PICTURE ROUNDS: see run.sh."""
import os
import resource
import subprocess
import sys
import tempfile
import time

TOP = os.path.join(os.path.dirname(os.path.abspath(__file__)), "..", "..")
FEEDER, PICTURE = sys.argv[1:3]
ROUNDS = int(sys.argv[3]) if len(sys.argv) > 3 else 20


def spent():
    used = resource.getrusage(resource.RUSAGE_CHILDREN)
    return used.ru_utime + used.ru_stime


def least(words, status=0):
    """The least processor time and the least time by the clock of these rounds, in milliseconds."""
    processor, clock = [], []
    for _ in range(ROUNDS):
        before, begun = spent(), time.perf_counter()
        ran = subprocess.run(words, cwd=TOP, stdout=subprocess.DEVNULL, stderr=subprocess.DEVNULL)
        clock.append(time.perf_counter() - begun)
        processor.append(spent() - before)
        assert ran.returncode == status, (words, ran.returncode)
    return min(processor) * 1000, min(clock) * 1000


def tell(what, words, status=0):
    processor, clock = least(words, status)
    print(f"| {what} | {processor:.1f} | {clock:.1f} |", flush=True)


def solve(what, name, status=0):
    tell(f"solve {name}.dss: {what}", [FEEDER, "solve", f"examples/{name}.dss"], status)


solve("refused", "refused-class", 3)
solve("2 nodes, 4 unknowns", "first")
solve("24 hours, a switched bank", "day")
solve("4 nodes, two loads", "ieee4-yy")
solve("13 nodes, 82 unknowns, fixed taps", "thirteen")
solve("three regulators, 2 rounds", "thirteen-regulated")
solve("three regulators, 2 rounds", "ieee13")
solve("34 nodes, 184 unknowns, fixed taps", "ieee34")
solve("six regulators", "ieee34-regulated")
solve("37 nodes, 222 unknowns, fixed taps", "ieee37")
solve("240 unknowns, two regulators", "ieee37-grounded")
with tempfile.NamedTemporaryFile() as certificate, tempfile.NamedTemporaryFile() as report:
    subprocess.run([FEEDER, "cert", "examples/ieee13.dss"], cwd=TOP, stdout=certificate, check=True)
    tell("cert ieee13.dss", [FEEDER, "cert", "examples/ieee13.dss"])
    tell("check of that certificate", [FEEDER, "check", "examples/ieee13.dss", certificate.name])
    tell("bench 7 12, 78 unknowns", [FEEDER, "bench", "7", "12"])
    tell("bench 7 39, 240 unknowns", [FEEDER, "bench", "7", "39"])
    tell("picture of day.out", [PICTURE, "examples/day.out"])
    tell("picture of ieee13.out", [PICTURE, "examples/ieee13.out"])
tell("./feeder solve first.dss, the program unpacked", ["./feeder", "solve", "examples/first.dss"])
