"""Imported feeders meet their published voltages.

The figures are those of the IEEE PES Distribution System Analysis Subcommittee's radial test feeders, entered by hand
from memory of their published results; look them up there before you rely on them. Those of the 13-node feeder are the
ones of docs/VALIDATION.md. Of the 37-node feeder only the buses next to its regulator are known well enough to stand
here.
"""

from __future__ import annotations

import unittest

from . import DATA
from .solving import degrees, voltages

from feeder_companion.dss.command_line import translate
from feeder_companion.dss.loads import Limits
from feeder_companion.dss.network import Network
from feeder_companion.dss.translate import Asked

NODES_34 = """\
800 1.0500 .00 1.0500 -120.00 1.0500 120.00
802 1.0475 -.05 1.0484 -120.07 1.0484 119.95
806 1.0457 -.08 1.0474 -120.11 1.0474 119.92
808 1.0136 -.75 1.0296 -120.95 1.0289 119.30
810 - - 1.0294 -120.95 - -
812 .9763 -1.57 1.0100 -121.92 1.0069 118.59
814 .9467 -2.26 .9945 -122.70 .9893 118.01
814r 1.0177 -2.26 1.0255 -122.70 1.0203 118.01
850 1.0176 -2.26 1.0255 -122.70 1.0203 118.01
816 1.0172 -2.26 1.0253 -122.71 1.0200 118.01
818 1.0163 -2.27 - - - -
820 .9926 -2.32 - - - -
822 .9895 -2.33 - - - -
824 1.0082 -2.37 1.0158 -122.94 1.0116 117.76
826 - - 1.0156 -122.94 - -
828 1.0074 -2.38 1.0151 -122.95 1.0109 117.75
830 .9894 -2.63 .9982 -123.39 .9938 117.25
854 .9890 -2.64 .9978 -123.40 .9934 117.24
852 .9581 -3.11 .9680 -124.18 .9637 116.33
852r 1.0359 -3.11 1.0345 -124.18 1.0360 116.33
832 1.0359 -3.11 1.0345 -124.18 1.0360 116.33
858 1.0336 -3.17 1.0322 -124.28 1.0338 116.22
834 1.0309 -3.24 1.0295 -124.39 1.0313 116.09
842 1.0309 -3.25 1.0294 -124.39 1.0313 116.09
844 1.0307 -3.27 1.0291 -124.42 1.0311 116.06
846 1.0309 -3.32 1.0291 -124.46 1.0313 116.01
848 1.0310 -3.32 1.0291 -124.47 1.0314 116.00
860 1.0305 -3.24 1.0291 -124.39 1.0310 116.09
836 1.0303 -3.23 1.0287 -124.39 1.0308 116.09
840 1.0303 -3.23 1.0287 -124.39 1.0308 116.09
862 1.0303 -3.23 1.0287 -124.39 1.0308 116.09
838 - - 1.0285 -124.39 - -
864 1.0336 -3.17 - - - -
888 .9996 -4.64 .9983 -125.73 1.0000 114.82
890 .9167 -5.19 .9235 -126.78 .9177 113.98
856 - - .9977 -123.41 - -
"""
"""Magnitude in per unit and angle in degrees of each phase; `-` where the bus hasn't it."""

NODES_37 = """\
799r 1.0437 0.00 1.0250 -120.00 1.0345 120.90
701 1.0317 -0.08 1.0144 -120.39 1.0183 120.61
702 1.0248 -0.14 1.0089 -120.58 - -
"""
"""Between phases: of AB, BC and CA."""

NODES_13 = """\
650 1.0000 1.0000 1.0000
rg60 1.0625 1.0500 1.0687
632 1.0210 1.0420 1.0174
633 1.0180 1.0401 1.0148
634 0.9940 1.0218 0.9960
645 - 1.0329 1.0155
646 - 1.0311 1.0134
671 0.9900 1.0529 0.9778
680 0.9900 1.0529 0.9778
684 0.9881 - 0.9758
611 - - 0.9738
652 0.9825 - -
692 0.9900 1.0529 0.9777
675 0.9835 1.0553 0.9758
"""


BALANCED_4 = """\
n2 7107 -0.3 7140 -120.3 7121 119.6
n3 2247.6 -3.7 2269 -123.5 2256 116.4
n4 1918 -9.1 2061 -128.3 1981 110.9
"""
UNBALANCED_4 = """\
n2 7164 -0.1 7110 -120.2 7082 119.3
n3 2305 -2.3 2255 -123.6 2203 114.8
n4 2175 -4.1 1930 -126.8 1833 102.8
"""
"""Volts to ground and degrees, wye to wye, stepped down."""


def rows(table: str) -> list[list[str]]:
    """The fields of a table's lines."""
    return [line.split() for line in table.splitlines()]


def imported(master: str, anchor: bool = False) -> str:
    """The script that a feeder of the data folder comes to."""
    answer = translate(DATA / master, (), Asked(anchor, Limits(0.8, 1.2)))
    assert answer.status == 0, answer.remarks
    return answer.text


def turned(angle: float) -> float:
    """An angle in degrees, from -180 to 180."""
    return (angle + 180) % 360 - 180


class Published(unittest.TestCase):
    """Voltages of whole feeders."""

    def test_34_nodes(self) -> None:
        """All 92 figures, at the published taps: within 0.0002 per unit and 0.04 degrees."""
        found = voltages(imported("ieee34/ieee34Mod1.dss"))
        count = 0
        for bus, *figures in rows(NODES_34):
            base = (4160 if bus in ("888", "890") else 24900) / 3**0.5
            for phase in (0, 1, 2):
                if figures[2 * phase] == "-":
                    self.assertNotIn(f"{bus}.{phase + 1}", found)
                    continue
                count += 1
                size, angle = (float(f) for f in figures[2 * phase : 2 * phase + 2])
                value = found[f"{bus}.{phase + 1}"]
                self.assertAlmostEqual(abs(value) / base, size, delta=0.0002, msg=f"{bus}.{phase + 1}")
                self.assertLess(abs(turned(degrees(value) - angle)), 0.04, f"{bus}.{phase + 1}")
        self.assertEqual(count, 92)

    def test_37_nodes(self) -> None:
        """With its floating zones anchored, at the published taps: within 0.0001 per unit and 0.01 degrees."""
        found = voltages(imported("ieee37/ieee37.dss", anchor=True))
        for bus, *figures in rows(NODES_37):
            for phase in (0, 1, 2):
                if figures[2 * phase] == "-":
                    continue
                size, angle = (float(f) for f in figures[2 * phase : 2 * phase + 2])
                value = found[f"{bus}.{phase + 1}"] - found[f"{bus}.{(phase + 1) % 3 + 1}"]
                self.assertAlmostEqual(abs(value) / 4800, size, delta=0.0001, msg=f"{bus} {phase}")
                self.assertLess(abs(turned(degrees(value) - 30 - angle)), 0.01, f"{bus} {phase}")

    def test_37_nodes_bank(self) -> None:
        """The grounding bank carries nothing but cable charging, and all of the feeder fits."""
        answer = translate(DATA / "ieee37" / "ieee37.dss", (), Asked(True, Limits(0.8, 1.2)))
        self.assertIn("all zones: 240 unknowns of at most 480, 8 magnitudes of at most 96", answer.remarks)
        self.assertIn("buses=(799 gnd_799.1.2.0) conns=(wye delta)", answer.text)
        self.assertIn("New Line.corner_775 bus1=775.1 bus2=775.0 phases=1 r1=0 x1=0", answer.text)

    def test_4_nodes(self) -> None:
        """Lines by their geometry: within 1 V of 7,200 and of 2,400, and 0.06 degrees."""
        for master, table in (("balanced", BALANCED_4), ("unbalanced", UNBALANCED_4)):
            found = voltages(imported(f"ieee4/{master}.dss"))
            for bus, *figures in rows(table):
                for phase in (0, 1, 2):
                    volts, angle = (float(f) for f in figures[2 * phase : 2 * phase + 2])
                    value = found[f"{bus}.{phase + 1}"]
                    self.assertAlmostEqual(abs(value), volts, delta=1.0, msg=f"{master} {bus} {phase}")
                    self.assertLess(abs(turned(degrees(value) - angle)), 0.06, f"{master} {bus} {phase}")

    def test_13_nodes(self) -> None:
        """OpenDSS's script puts a load at a third of its line and begins at 115 kV: within 0.0013 per unit for it."""
        found = voltages(imported("ieee13/IEEE13Nodeckt.dss"))
        for bus, *figures in rows(NODES_13):
            base = (480 if bus == "634" else 4160) / 3**0.5
            for phase, figure in enumerate(figures, 1):
                if figure != "-":
                    size = abs(found[f"{bus}.{phase}"]) / base
                    self.assertAlmostEqual(size, float(figure), delta=0.0013 + 5e-5, msg=f"{bus}.{phase}")

    def test_counts(self) -> None:
        """The 13-node feeder has 82 unknowns: 41 nodes and 41 branch phases."""
        self.assertEqual(Network([]).unknowns(), 0)
        answer = translate(DATA / "ieee13" / "IEEE13Nodeckt.dss", (), Asked(False, Limits(0.8)))
        self.assertIn("all zones: 82 unknowns of at most 480, 2 magnitudes of at most 96", answer.remarks)


if __name__ == "__main__":
    unittest.main()
