"""table.py REPORT..: the nodes of reports of the 13-node feeder beside the published magnitudes, as the table of
docs/VALIDATION.md, and the greatest differences from the published angles. A difference is that of the middle of our interval."""
import cmath
import csv
import math
import sys

# IEEE 13 Node Test Feeder, voltage profile: magnitudes in per unit of the phases 1, 2 and 3, and None where a bus
# hasn't the phase.
PUBLISHED = {
    "650": (1.0000, 1.0000, 1.0000),
    "rg60": (1.0625, 1.0500, 1.0687),
    "632": (1.0210, 1.0420, 1.0174),
    "633": (1.0180, 1.0401, 1.0148),
    "634": (0.9940, 1.0218, 0.9960),
    "645": (None, 1.0329, 1.0155),
    "646": (None, 1.0311, 1.0134),
    "671": (0.9900, 1.0529, 0.9778),
    "680": (0.9900, 1.0529, 0.9778),
    "684": (0.9881, None, 0.9758),
    "611": (None, None, 0.9738),
    "652": (0.9825, None, None),
    "692": (0.9900, 1.0529, 0.9777),
    "675": (0.9835, 1.0553, 0.9758),
}
# The angles of the same figures in degrees.
ANGLES = {
    "650": (0.00, -120.00, 120.00),
    "rg60": (0.00, -120.00, 120.00),
    "632": (-2.49, -121.72, 117.83),
    "633": (-2.56, -121.77, 117.82),
    "634": (-3.23, -122.22, 117.34),
    "645": (None, -121.90, 117.86),
    "646": (None, -121.98, 117.90),
    "671": (-5.30, -122.34, 116.02),
    "680": (-5.30, -122.34, 116.02),
    "684": (-5.32, None, 115.92),
    "611": (None, None, 115.78),
    "652": (-5.25, None, None),
    "692": (-5.31, -122.34, 116.02),
    "675": (-5.56, -122.52, 116.03),
}
ROOT_THREE = 1.732050807568877
VOLTS = {"634": 480 / ROOT_THREE}


def last_round(path):
    """The least and the greatest size of each node's voltage in a report's last solution."""
    nodes = {}
    with open(path, encoding="utf-8") as report:
        for record in csv.reader(report):
            if record[0] == "solution":
                nodes = {}
            elif record[0] == "node":
                angle = math.degrees(cmath.phase(complex(float(record[2]), float(record[3]))))
                nodes[record[1]] = (float(record[6]), float(record[7]), angle)
    return nodes


def main():
    reports = [last_round(path) for path in sys.argv[1:]]
    widest, worst, turned = [0.0] * len(reports), [0.0] * len(reports), [0.0] * len(reports)
    for bus, published in PUBLISHED.items():
        volts = VOLTS.get(bus, 4160 / ROOT_THREE)
        for phase, magnitude in enumerate(published, 1):
            if magnitude is None:
                continue
            cells = []
            for at, nodes in enumerate(reports):
                low, high = (it / volts for it in nodes[f"{bus}.{phase}"][:2])
                angle = nodes[f"{bus}.{phase}"][2] - ANGLES[bus][phase - 1]
                turned[at] = max(turned[at], abs((angle + 180) % 360 - 180))
                apart = (low + high) / 2 - magnitude
                widest[at], worst[at] = max(widest[at], high - low), max(worst[at], abs(apart))
                cells += [f"{(low + high) / 2:.6f}", f"{apart:+.4f}"] if at == 0 else [f"{apart:+.4f}"]
            print(f"| {bus}.{phase} | {magnitude:.4f} | {' | '.join(cells)} |")
    print("greatest difference", *(f"{it:.4f}" for it in worst))
    print("greatest difference of angles", *(f"{it:.3f}" for it in turned))
    print("widest interval", *(f"{it * 1e6:.2f}e-6" for it in widest))


main()
