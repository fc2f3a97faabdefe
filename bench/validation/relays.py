"""relays.py REPORT..: the relay voltages of the 13-node feeder's three regulators in the last round of each report."""
import csv
import sys


def relays(path):
    volts, amperes = {}, {}
    with open(path, encoding="utf-8") as report:
        for record in csv.reader(report):
            if record[0] == "node":
                volts[record[1]] = complex(float(record[2]), float(record[3]))
            elif record[0] == "branch":
                amperes[record[1]] = complex(float(record[3]), float(record[4]))
    return [abs(volts[f"rg60.{k}"] / 20 - (3 + 9j) * amperes[f"transformer.reg{k}"] / 700) for k in (1, 2, 3)]


for path in sys.argv[1:]:
    print("relay voltages", *(f"{it:.2f}" for it in relays(path)))
