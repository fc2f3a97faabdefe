"""sweeps.py [PROGRAM]: what the ladder sweeps beside the examples come to, as the table of docs/VALIDATION.md, by the program's
`ladder`, or by the exact model of tools/model where none is named."""
import os
import subprocess
import sys

TOP = os.path.dirname(os.path.dirname(os.path.dirname(os.path.abspath(__file__))))
SCRIPTS = (
    "thirteen", "thirteen-regulated", "ieee13", "ieee34", "ieee34-regulated", "ieee4-yy", "ieee4-dy", "radial", "lines", "delta-wye",
    "day", "day-by-time", "zip-day", "first", "ieee37", "ieee37-grounded", "ieee4-yd", "ieee4-dd", "delta-grounded",
)


def report_of(name, program):
    """The report of `ladder` of an example."""
    script = f"{TOP}/examples/{name}.dss"
    words = [program, "ladder", script] if program else [sys.executable, f"{TOP}/tools/model/feeder.py", script, "ladder"]
    return subprocess.run(words, stdout=subprocess.PIPE, check=False).stdout.decode().splitlines()


def main():
    program = sys.argv[1] if len(sys.argv) > 1 else None
    print("| Script | Sweeps | Gap, V | Radius, V |\n|---|---|---|---|")
    for name in SCRIPTS:
        records = [it.split(",") for it in report_of(name, program) if it.startswith(("ladder,", "fault,"))]
        if records and all(it[1] == "agrees" for it in records):
            cells = [" and ".join(it) for it in zip(*(it[2:] for it in records))]
        else:
            cells = ["; ".join(" ".join(it[1:]) for it in records), "", ""]
        print(f"| `{name}.dss` | {' | '.join(cells)} |")


main()
