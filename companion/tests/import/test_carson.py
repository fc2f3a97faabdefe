"""Carson's equations and Kron's reduction against the worked examples of Kersting's book and the published feeders."""

from __future__ import annotations

import math
import unittest


from feeder_companion.dss.carson import Cable, Conductor, NoGeometry, cables, concentric_gmr, kron, overhead

HERTZ, RHO = 60.0, 100.0
OMEGA = 2 * math.pi * HERTZ


def spacing_500(resistance: float, gmr: float, diameter: float, order: tuple[int, int, int]) -> list[Conductor]:
    """Spacing 500: three phases on a crossarm 29 feet high, and a 4/0 6/1 ACSR neutral 4 feet across, 25 high."""
    places = (0.0, 2.5, 7.0)
    phases = [Conductor(places[k], 29.0, resistance, gmr, diameter / 24) for k in order]
    return [*phases, Conductor(4.0, 25.0, 0.5920, 0.00814, 0.563 / 24)]


class Kersting(unittest.TestCase):
    """Figures in ohms and microsiemens per mile, to the last printed digit or one beside it."""

    def check(self, found: list[list[complex]], wanted: list[list[complex]], delta: float) -> None:
        """Compares the upper triangles, and that the matrix is symmetric."""
        for i, row in enumerate(wanted):
            for j, value in enumerate(row, i):
                self.assertAlmostEqual(found[i][j].real, complex(value).real, delta=delta)
                self.assertAlmostEqual(found[i][j].imag, complex(value).imag, delta=delta)
                self.assertAlmostEqual(abs(found[i][j] - found[j][i]), 0, places=12)

    def test_example_4_1(self) -> None:
        """Example 4.1: 336,400 26/7 ACSR in the order a, b, c."""
        found, _ = overhead(spacing_500(0.306, 0.0244, 0.721, (0, 1, 2)), 3, HERTZ, RHO)
        wanted = [
            [0.4576 + 1.0780j, 0.1560 + 0.5017j, 0.1535 + 0.3849j],
            [0.4666 + 1.0482j, 0.1580 + 0.4236j],
            [0.4615 + 1.0651j],
        ]
        self.check(found, wanted, 0.00011)

    def test_configuration_601(self) -> None:
        """Configuration 601 of the 13-node feeder: 556,500 26/7 ACSR in the order b, a, c from the left."""
        found, _ = overhead(spacing_500(0.1859, 0.0313, 0.927, (1, 0, 2)), 3, HERTZ, RHO)
        wanted = [
            [0.3465 + 1.0179j, 0.1560 + 0.5017j, 0.1580 + 0.4236j],
            [0.3375 + 1.0478j, 0.1535 + 0.3849j],
            [0.3414 + 1.0348j],
        ]
        self.check(found, wanted, 0.00011)

    def test_example_5_1(self) -> None:
        """Example 5.1: the shunt admittance of the line of example 4.1."""
        _, capacitance = overhead(spacing_500(0.306, 0.0244, 0.721, (0, 1, 2)), 3, HERTZ, RHO)
        found = [[complex(0, OMEGA * c * 1e-3) for c in row] for row in capacitance]
        self.check(found, [[5.6712j, -1.8362j, -0.7034j], [5.9774j, -1.1690j], [5.3911j]], 0.0002)

    def test_configuration_606(self) -> None:
        """Configuration 606: three 250,000 AA cables with 13 strands of 14 AWG copper, 6 inches apart."""
        ring = (1.29 - 0.0641) / 24
        gmr = concentric_gmr(13, 0.00208, ring)
        group = [
            Cable(Conductor(x, 0.0, 0.41, 0.0171, 0.0236), 14.8722 / 13, gmr, ring, 2.3, 0.0236, 0.0512)
            for x in (0.0, 0.5, 1.0)
        ]
        found, capacitance = cables(group, [], HERTZ, RHO)
        wanted = [
            [0.7982 + 0.4463j, 0.3192 + 0.0328j, 0.2849 - 0.0143j],
            [0.7891 + 0.4041j, 0.3192 + 0.0328j],
            [0.7982 + 0.4463j],
        ]
        self.check(found, wanted, 0.00011)
        self.assertEqual([capacitance[0][1], capacitance[1][2]], [0.0, 0.0])

    def test_coaxial_capacitance(self) -> None:
        """Two coaxial cylinders: 2 pi epsilon over the logarithm of their radii; e to 1 gives 55.6325 pF/m."""
        core = Conductor(0.0, 0.0, 0.1, 0.01, 0.01)
        cable = Cable(core, 1.0, 0.05, 0.05, 1.0, 0.01, 0.01 * math.e)
        _, capacitance = cables([cable], [], HERTZ, RHO)
        self.assertAlmostEqual(capacitance[0][0], 0.0556325 * 1609.344, delta=0.001)

    def test_kron_by_hand(self) -> None:
        """[[2, 1], [1, 4]] without its second conductor is 2 - 1/4."""
        self.assertEqual(kron([[2, 1], [1, 4]], 1), [[1.75 + 0j]])

    def test_single_wire_by_hand(self) -> None:
        """A wire of 1 foot GMR: resistance plus 0.00158836 f, and 0.00202237 f times 7.6786 + half ln(100/60)."""
        found, _ = overhead([Conductor(0.0, 30.0, 0.5, 1.0, 1.0)], 1, HERTZ, RHO)
        self.assertAlmostEqual(found[0][0].real, 0.5953016, places=9)
        self.assertAlmostEqual(found[0][0].imag, 0.1213422 * (7.6786 + 0.5 * math.log(100 / 60)), places=9)

    def test_no_geometry(self) -> None:
        """Two conductors at one place have no impedance."""
        wire = Conductor(0.0, 30.0, 0.5, 0.02, 0.02)
        with self.assertRaises(NoGeometry):
            overhead([wire, wire], 2, HERTZ, RHO)


if __name__ == "__main__":
    unittest.main()
