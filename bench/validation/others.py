"""others.py: the published figures of the IEEE 34-, 37- and 4-node test feeders beside the reports that are stored in examples/, as
the tables of docs/VALIDATION.md, with the power that each feeder takes and what it loses."""
import cmath
import csv
import math
import os
import re

EXAMPLES = os.path.join(os.path.dirname(os.path.abspath(__file__)), "..", "..", "examples")
ROOT_THREE = math.sqrt(3)

# IEEE 34 Node Test Feeder, radial flow summary: magnitude in per unit and angle in degrees of the phases 1, 2 and 3, and - where a
# bus hasn't the phase. The buses behind the regulators are RG10 and RG11 there.
IEEE34 = """800 1.0500 0.00 1.0500 -120.00 1.0500 120.00
802 1.0475 -0.05 1.0484 -120.07 1.0484 119.95
806 1.0457 -0.08 1.0474 -120.11 1.0474 119.92
808 1.0136 -0.75 1.0296 -120.95 1.0289 119.30
810 - - 1.0294 -120.95 - -
812 0.9763 -1.57 1.0100 -121.92 1.0069 118.59
814 0.9467 -2.26 0.9945 -122.70 0.9893 118.01
814r 1.0177 -2.26 1.0255 -122.70 1.0203 118.01
850 1.0176 -2.26 1.0255 -122.70 1.0203 118.01
816 1.0172 -2.26 1.0253 -122.71 1.0200 118.01
818 1.0163 -2.27 - - - -
820 0.9926 -2.32 - - - -
822 0.9895 -2.33 - - - -
824 1.0082 -2.37 1.0158 -122.94 1.0116 117.76
826 - - 1.0156 -122.94 - -
828 1.0074 -2.38 1.0151 -122.95 1.0109 117.75
830 0.9894 -2.63 0.9982 -123.39 0.9938 117.25
854 0.9890 -2.64 0.9978 -123.40 0.9934 117.24
856 - - 0.9977 -123.41 - -
852 0.9581 -3.11 0.9680 -124.18 0.9637 116.33
852r 1.0359 -3.11 1.0345 -124.18 1.0360 116.33
832 1.0359 -3.11 1.0345 -124.18 1.0360 116.33
888 0.9996 -4.64 0.9983 -125.73 1.0000 114.82
890 0.9167 -5.19 0.9235 -126.78 0.9177 113.98
858 1.0336 -3.17 1.0322 -124.28 1.0338 116.22
864 1.0336 -3.17 - - - -
834 1.0309 -3.24 1.0295 -124.39 1.0313 116.09
842 1.0309 -3.25 1.0294 -124.39 1.0313 116.09
844 1.0307 -3.27 1.0291 -124.42 1.0311 116.06
846 1.0309 -3.32 1.0291 -124.46 1.0313 116.01
848 1.0310 -3.32 1.0291 -124.47 1.0314 116.00
860 1.0305 -3.24 1.0291 -124.39 1.0310 116.09
836 1.0303 -3.23 1.0287 -124.39 1.0308 116.09
840 1.0303 -3.23 1.0287 -124.39 1.0308 116.09
862 1.0303 -3.23 1.0287 -124.39 1.0308 116.09
838 - - 1.0285 -124.39 - -"""
# IEEE 37 Node Test Feeder: voltages between the phases 1 2, 2 3 and 3 1, in per unit of 4.8 kV, with angles from that of phase 1 2.
IEEE37 = """799r 1.0437 0.00 1.0250 -120.00 1.0345 120.90
701 1.0317 -0.08 1.0144 -120.39 1.0183 120.61"""
# IEEE 4 Node Test Feeder, step-down: volts and degrees at the buses 2, 3 and 4, to ground on a wye side and between phases on a
# delta side, for the balanced and for the unbalanced load.
IEEE4 = {
    "yy": (
        "7107 -0.3 7140 -120.3 7121 119.6 2247.6 -3.7 2269 -123.5 2256 116.4 1918 -9.1 2061 -128.3 1981 110.9",
        "7164 -0.1 7110 -120.2 7082 119.3 2305 -2.3 2255 -123.6 2203 114.8 2175 -4.1 1930 -126.8 1833 102.8",
    ),
    "yd": (
        "7113 -0.3 7132 -120.3 7123 119.6 3906 -3.5 3915 -123.6 3909 116.3 3437 -7.8 3497 -129.3 3388 110.6",
        "7113 -0.2 7144 -120.4 7111 119.5 3896 -2.8 3972 -123.8 3875 115.7 3425 -5.8 3646 -130.3 3298 108.6",
    ),
    "dy": (
        "12340 29.7 12349 -90.4 12318 149.6 2249 -33.7 2263 -153.4 2259 86.4 1920 -39.1 2054 -158.3 1986 80.9",
        "12350 29.6 12314 -90.4 12333 149.8 2290 -32.4 2261 -153.8 2214 85.2 2157 -34.2 1936 -157.0 1849 73.4",
    ),
    "dd": (
        "12339 29.7 12349 -90.4 12321 149.6 3911 26.5 3914 -93.6 3905 146.4 3442 22.3 3497 -99.4 3384 140.7",
        "12341 29.8 12370 -90.5 12302 149.5 3902 27.2 3972 -93.9 3871 145.7 3431 24.3 3647 -100.4 3294 138.6",
    ),
}


def settles(name):
    """The voltages, the branch currents and the widest interval of each settle's last round in examples/NAME.out."""
    found, key = {}, None
    with open(f"{EXAMPLES}/{name}.out", encoding="utf-8", newline="") as report:
        for record in csv.reader(report):
            if record[0] == "solution":
                key = record[1]
                found[key] = ({}, {}, [0.0])
            elif record[0] == "node":
                found[key][0][record[1]] = complex(float(record[2]), float(record[3]))
                found[key][2][0] = max(found[key][2][0], float(record[7]) - float(record[6]))
            elif record[0] == "branch":
                found[key][1][record[1], int(record[2])] = complex(float(record[3]), float(record[4]))
    return list(found.values())


def script(name):
    with open(f"{EXAMPLES}/{name}.dss", encoding="utf-8") as it:
        return re.sub(r"(?m)^Redirect (.*)\.dss\n", lambda found: script(found[1]), it.read())


def pairs(line):
    return {name.lower(): value.strip("()") for name, value in re.findall(r"(\S+?)=(\([^)]*\)|\S+)", line)}


def power(name, volts, amperes):
    """What the source gives, in kVA, and what lines and transformers lose, in kW."""
    text, lost = script(name), 0.0
    for kind, element, rest in re.findall(r"(?m)^New (Line|Transformer)\.(\S+) (.*)$", text):
        it = pairs(rest)
        phases = int(it.get("phases", 3))
        for k in range(1, phases + 1):
            current = amperes[f"{kind.lower()}.{element.lower()}", k]
            if kind == "Line":
                ends = []
                for side in ("bus1", "bus2"):
                    bus, *nodes = it[side].split(".")
                    node = nodes[k - 1] if nodes else str(k)
                    ends.append(volts[f"{bus}.{node}"] if node != "0" else 0)
                lost += ((ends[0] - ends[1]) * current.conjugate()).real
            else:
                kv, conn = float(it["kvs"].split()[1]), it.get("conns", "wye wye").split()[1]
                nominal = kv * 1000 / (ROOT_THREE if phases == 3 and conn == "wye" else 1)
                ohm = float(it["%loadloss"]) / 100 * nominal**2 / (float(it["kvas"].split()[1]) * 1000 / phases)
                lost += ohm * abs(current) ** 2
    bus = (re.search(r"(?m)^New Circuit.*bus1=(\S+)", text) or [None, "sourcebus"])[1]
    given = sum(volts[f"{bus}.{k}"] * amperes["vsource.source", k].conjugate() for k in (1, 2, 3))
    return f"takes {given.real / 1000:.3f} kW and {given.imag / 1000:.3f} kvar, loses {lost / 1000:.3f} kW"


def between(volts, bus):
    at = [volts[f"{bus}.{k}"] for k in (1, 2, 3)]
    return [at[0] - at[1], at[1] - at[2], at[2] - at[0]]


def degrees(phasor):
    return math.degrees(cmath.phase(phasor))


def turned(angle):
    return (angle + 180) % 360 - 180


class Worst:
    def __init__(self):
        self.size, self.angle, self.count = (0.0, ""), (0.0, ""), 0

    def take(self, what, size, angle):
        self.count += 1
        self.size = max(self.size, (abs(size), what))
        self.angle = max(self.angle, (abs(turned(angle)), what))

    def __str__(self):
        return f"{self.count} figures; greatest difference {self.size[0]:.5f} ({self.size[1]}), {self.angle[0]:.3f} degrees ({self.angle[1]})"


def table34():
    (volts, amperes, widest), worst = settles("ieee34")[0], Worst()
    for row in IEEE34.split("\n"):
        bus, *figures = row.split()
        published, ours, apart = [], [], []
        for k in (1, 2, 3):
            size, angle = figures[2 * k - 2 : 2 * k]
            if size == "-":
                continue
            phasor = volts[f"{bus}.{k}"] / ((4160 if bus in ("888", "890") else 24900) / ROOT_THREE)
            worst.take(f"{bus}.{k}", abs(phasor) - float(size), degrees(phasor) - float(angle))
            published.append(size)
            ours.append(f"{abs(phasor):.5f}")
            apart.append(f"{abs(phasor) - float(size):+.5f}")
        print(f"| {bus} | {', '.join(published)} | {', '.join(ours)} | {', '.join(apart)} |")
    print("IEEE 34:", worst, f"; widest interval {widest[0] / 14376e-6:.2f} millionths; it", power("ieee34", volts, amperes))
    with open(f"{EXAMPLES}/ieee34-regulated.out", encoding="utf-8") as report:
        print("".join(it for it in report if it.startswith(("act,", "tap,"))), end="")


def table37():
    for name in ("ieee37",):
        (volts, amperes, widest), worst = settles(name)[-1], Worst()
        for row in IEEE37.split("\n"):
            bus, *figures = row.split()
            cells = []
            for k, phasor in enumerate(between(volts, bus)):
                phasor *= cmath.exp(-1j * math.pi / 6) / 4800
                size, angle = figures[2 * k : 2 * k + 2]
                worst.take(f"{bus} {k + 1}", abs(phasor) - float(size), degrees(phasor) - float(angle))
                cells += [f"{size} at {angle}", f"{abs(phasor):.5f} at {degrees(phasor):.3f}"]
            print(f"| {bus} | {' | '.join(cells)} |")
        print(f"{name}:", worst, f"; widest interval {widest[0]:.6f} V; it", power(name, volts, amperes))


def table4():
    for name, cases in IEEE4.items():
        for what, published, (volts, amperes, widest) in zip(("balanced", "unbalanced"), cases, settles(f"ieee4-{name}")):
            figures, worst = list(map(float, published.split())), Worst()
            print(f"{name} {what}", end="")
            for bus in (2, 3, 4):
                is_delta = name[0 if bus == 2 else 1] == "d"
                ours = between(volts, bus) if is_delta else [volts[f"{bus}.{k}"] for k in (1, 2, 3)]
                nominal = (12470 if bus == 2 else 4160) / (1 if is_delta else ROOT_THREE)
                cells = []
                for k, phasor in enumerate(ours):
                    size, angle = figures[6 * (bus - 2) + 2 * k : 6 * (bus - 2) + 2 * k + 2]
                    worst.take(f"{bus}.{k + 1}", (abs(phasor) - size) / nominal, degrees(phasor) - angle)
                    cells.append(f"{size:g}/{abs(phasor):.1f}")
                print(" |", ", ".join(cells), end="")
            print(f"\n  {worst}; widest interval {widest[0]:.6f} V; {power(f'ieee4-{name}', volts, amperes)}")


table34()
table37()
table4()
