"""What the script connects: unknowns by zone, where to cut, floating zones and their anchors."""

from __future__ import annotations

import unittest

from .cases import Constructs, answer_to, elements
from .solving import voltages

from feeder_companion.dss.findings import Place
from feeder_companion.dss.network import Network
from feeder_companion.dss.profile import Item

HERE = Place("m.dss", 1)


def circuit() -> Item:
    """A source of three phases at bus s."""
    return Item("circuit", "c", {"bus1": "s", "phases": "3"}, HERE)


def line(name: str, one: str, two: str, phases: int = 3) -> Item:
    """A line."""
    return Item("line", name, {"bus1": one, "bus2": two, "phases": str(phases)}, HERE)


def transformer(name: str, buses: str, conns: str, phases: int = 3) -> Item:
    """A transformer of 12.47 to 0.48 kV."""
    pairs = {"phases": str(phases), "buses": f"({buses})", "conns": f"({conns})", "kvs": "(12.47 0.48)"}
    return Item("transformer", name, pairs, HERE)


class Counts(unittest.TestCase):
    """Nodes and branch phases."""

    def test_zones(self) -> None:
        """A source and a line of three phases: 6 nodes and 6 branches; behind a transformer 3 and 3."""
        network = Network([circuit(), line("a", "s", "b"), transformer("t", "b d", "delta wye")])
        found = [(z.name, z.nodes, z.branches) for z in network.zones()]
        self.assertEqual(found, [("s", 6, 6), ("d", 3, 3)])
        self.assertEqual(network.unknowns(), 18)

    def test_code_phases(self) -> None:
        """A line has the phases of its code."""
        code = Item("linecode", "K", {"nphases": "1"}, HERE)
        one = Item("line", "a", {"bus1": "s.1", "bus2": "b.1", "linecode": "k"}, HERE)
        self.assertEqual(Network([circuit(), code, one]).unknowns(), 8)

    def test_magnitudes(self) -> None:
        """A constant-current load has one for each phase."""
        load = Item("load", "d", {"bus1": "s", "phases": "3", "model": "5"}, HERE)
        self.assertEqual(Network([circuit(), load]).magnitudes(), 3)

    def test_fed(self) -> None:
        """Lines feed phase by phase."""
        network = Network([circuit(), line("a", "s.2", "b.3", 1), line("x", "y", "z")])
        self.assertEqual(network.fed(), {("s", 1), ("s", 2), ("s", 3), ("b", 3)})

    def test_cuts(self) -> None:
        """A chain of five lines: 6 unknowns a bus behind the source's; a limit of 20 leaves room for two of them."""
        buses = ["s", *"bcdef"]
        chain = [circuit(), *(line(f"l{i}", a, b) for i, (a, b) in enumerate(zip(buses, buses[1:])))]
        cuts = [(i.name, bus, count) for i, bus, count in Network(chain).cuts(20)]
        self.assertEqual(cuts, [("l2", "d", 15)])
        self.assertEqual(Network(chain).cuts(), [])

    def test_too_many(self) -> None:
        """102 buses of 6 unknowns each on one line after another, said with a cut for each part."""
        lines = [
            f"New Line.x{i} bus1={'b' if i == 0 else f'e{i - 1}'} bus2=e{i} r1=1 x1=1 r0=1 x0=1 c1=0 c0=0"
            for i in range(100)
        ]
        answer = answer_to("\n".join(lines))
        self.assertEqual(answer.status, 0)
        self.assertIn("all zones: 612 unknowns of at most 480, 0 magnitudes of at most 96", answer.remarks)
        cuts = [r for r in answer.remarks if r.startswith("cut ")]
        self.assertEqual(len(cuts), 1)
        self.assertTrue(all(int(c.split(": ")[1].split()[0]) <= 477 for c in cuts), cuts)


class Floating(Constructs):
    """Zones without a path to ground."""

    DELTA = "New Transformer.t buses=[b d] conns=[wye delta] kvs=[12.47 4.16] kvas=[1000 1000] xhl=7\n"
    LOAD = "New Load.p bus1=d kv=4.16 conn=delta kw=100 kvar=20 vminpu=.9 vmaxpu=1.1\n"

    def test_structure(self) -> None:
        """Which windings hold a zone: wye of a held one, or wye over delta."""
        for conns, floats in (("wye wye", False), ("delta wye", False), ("wye delta", True), ("delta delta", True)):
            loose = Network([circuit(), transformer("t", "s d", conns)]).floating()
            self.assertEqual(loose, {("d", n) for n in (1, 2, 3)} if floats else set(), conns)
        bank = transformer("g", "d g.1.2.0", "wye delta")
        self.assertEqual(Network([circuit(), transformer("t", "s d", "delta delta"), bank]).floating(), set())
        corner = line("k", "d.1", "d.0", 1)
        self.assertEqual(Network([circuit(), transformer("t", "s d", "delta delta"), corner]).floating(), set())

    def test_one_phase_windings(self) -> None:
        """A winding between two nodes holds nothing; from a node to ground it does."""
        for first, conns, floats in (
            ("s.1.2 d.1.2", "delta delta", True),
            ("s.1.2 d.1.0", "delta wye", False),
            ("s.1 d.1", "wye wye", False),
        ):
            loose = Network([circuit(), transformer("t", first, conns, 1)]).floating()
            self.assertEqual(bool(loose), floats, conns)

    def test_open_delta(self) -> None:
        """Two regulators between phases and a jumper, as in the 37-node feeder."""
        items = [
            circuit(),
            transformer("a", "s.1.2 r.1.2", "delta delta", 1),
            transformer("c", "s.3.2 r.3.2", "delta delta", 1),
        ]
        self.assertEqual(len(Network(items).floating()), 3)
        self.assertEqual(Network([*items, line("j", "s.2", "r.2", 1)]).floating(), set())

    def test_behind_a_floating_zone(self) -> None:
        """A wye-wye transformer hands on what it stands on."""
        items = [circuit(), transformer("t", "s d", "wye delta"), transformer("u", "d e", "wye wye")]
        self.assertEqual({n[0] for n in Network(items).floating()}, {"d", "e"})

    def test_warned(self) -> None:
        """Without --anchor it is only said."""
        self.check(self.DELTA + self.LOAD, ["W zone of bus d has no path to ground"])

    def test_anchored(self) -> None:
        """The bank changes no voltage between phases and brings their mean to ground."""
        answer = self.check(
            self.DELTA + self.LOAD,
            ["T --anchor: zone of bus d floats: a grounding bank"],
            ["New Transformer.gnd_d phases=3 windings=2 buses=(d gnd_d.1.2.0) conns=(wye delta) kvs=(4.16 0.48)"],
            anchor=True,
        )
        found = voltages(answer.text)
        self.assertLess(abs(sum(found[f"d.{n}"] for n in (1, 2, 3))), 0.001)
        tied = "New Line.tie phases=1 bus1=d.1 bus2=d.0 r1=0 x1=0 r0=0 x0=0 c1=0 c0=0\n"
        other = voltages(answer_to(self.DELTA + self.LOAD + tied).text)
        for a, b in ((1, 2), (2, 3), (3, 1)):
            self.assertLess(abs(found[f"d.{a}"] - found[f"d.{b}"] - other[f"d.{a}"] + other[f"d.{b}"]), 1e-4)

    def test_corner(self) -> None:
        """Where nothing is drawn one corner does, and counts one unknown."""
        self.check(self.DELTA, ["T one corner of it is grounded"], ["New Line.corner_d bus1=d.1 bus2=d.0"], anchor=True)

    def test_loads_in_wye(self) -> None:
        """Their unbalance flows in the bank, and that is said."""
        load = "New Load.p bus1=d.1 phases=1 kv=2.4 kw=100 kvar=20 vminpu=.9 vmaxpu=1.1\n"
        self.check(
            self.DELTA + load, ["T a grounding bank", "W loads in wye at the floating zone of bus d"], anchor=True
        )


class Equivalents(unittest.TestCase):
    """Translations that are more than spelling, against the circuits that they stand for."""

    def test_centre_tap(self) -> None:
        """The star of three windings: voltages by hand, with constant impedances and an ideal source.

        In per unit of 25 kVA: z1 = 0.006 + j 0.0136, z2 = z3 = 0.012 + j 0.0068; loads of 10 and 5 kW at 0.12 kV draw
        0.4 and 0.2. With v0 = z1 (i2 + i3): v2 (1 + 0.4 z2) = 1 - v0 and so on, from which v2 and v3 follow.
        """
        head = "Clear\nNew Circuit.c bus1=b basekv=7.2 phases=1 r1=0 x1=0 r0=0 x0=0\n"
        lines = (
            "New Transformer.t phases=1 windings=3 buses=[b.1 s.1.0 s.0.2] kvs=[7.2 .12 .12] kvas=[25 25 25]\n"
            "~ %rs=[0.6 1.2 1.2] xhl=2.04 xht=2.04 xlt=1.36\n"
            "New Load.p bus1=s.1 phases=1 kv=.12 kw=10 kvar=0 model=2\n"
            "New Load.q bus1=s.2 phases=1 kv=.12 kw=5 kvar=0 model=2"
        )
        found = voltages(answer_to(lines, head=head).text)
        one, two = 0.006 + 0.0136j, 0.012 + 0.0068j
        parallel = 0.4 / (1 + 0.4 * two) + 0.2 / (1 + 0.2 * two)
        inner = 1 / (1 + one * parallel)
        self.assertAlmostEqual(abs(found["s.1"] / 120 - inner / (1 + 0.4 * two)), 0, places=7)
        self.assertAlmostEqual(abs(found["s.2"] / 120 + inner / (1 + 0.2 * two)), 0, places=7)

    def test_two_phases(self) -> None:
        """Two phases of constant impedance in wye: each node is loaded by half."""
        lines = "New Load.p bus1=b.1.3 phases=2 kv=12.47 kw=60 kvar=0 model=2"
        load = elements(answer_to(lines).text)[("load", "p_1")]
        ohms = (load["kv"] / 1e9) ** 2 * 1000 / (load["kw"] / 1e9)
        self.assertAlmostEqual(ohms, 12.47**2 / 3 * 1000 / 30, places=4)


if __name__ == "__main__":
    unittest.main()
