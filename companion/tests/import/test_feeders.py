"""Feeders in the form in which they are distributed: what is dropped, translated and refused, line by line."""

from __future__ import annotations

import unittest
from pathlib import Path

from . import DATA
from .solving import voltages

from feeder_companion.dss.command_line import Answer, translate
from feeder_companion.dss.findings import Kind
from feeder_companion.dss.loads import Limits
from feeder_companion.dss.translate import Asked

KINDS = {
    "translated": Kind.TRANSLATED,
    "dropped": Kind.DROPPED,
    "not_carried": Kind.NOT_CARRIED,
    "warning": Kind.WARNING,
    "refused": Kind.REFUSED,
}
LIMITS = Limits(0.8, 1.2)


def expected(folder: str) -> list[tuple[str, Kind, str]]:
    """The lines of expected.txt: place, kind, and words of the remark."""
    lines = (DATA / folder / "expected.txt").read_text().splitlines()
    parts = [line.split(" ", 2) for line in lines]
    return [(place, KINDS[kind], words) for place, kind, words in parts]


def run(master: str, *without: str, anchor: bool = False, limits: Limits = LIMITS) -> Answer:
    """Imports a feeder of the data folder."""
    return translate(DATA / Path(master), without, Asked(anchor, limits))


class Remarks(unittest.TestCase):
    """Every remark is one that the source's own lines call for, and none is missing."""

    def check(self, master: str, limits: Limits = Limits()) -> Answer:
        """Compares a feeder's remarks with its expected ones."""
        answer = run(master, limits=limits)
        found = {(str(f.place), f.kind) for f in answer.findings.made}
        wanted = expected(master.split("/")[0])
        self.assertEqual(sorted((p, k.name) for p, k in found), sorted({(p, k.name) for p, k, _ in wanted}))
        for place, kind, words in wanted:
            texts = [f"{f.word} {f.text}" for f in answer.findings.made if str(f.place) == place and f.kind is kind]
            self.assertTrue(any(words in t for t in texts), f"{place} {kind.name}: {words!r} isn't in {texts}")
        return answer

    def test_13_nodes(self) -> None:
        """The 13-node feeder."""
        self.assertEqual(self.check("ieee13/IEEE13Nodeckt.dss").status, 0)

    def test_123_nodes(self) -> None:
        """The first streets of the 123-node feeder."""
        self.assertEqual(self.check("ieee123/IEEE123Master.dss").status, 0)

    def test_circuit(self) -> None:
        """An EPRI circuit's street, with what the profile hasn't."""
        answer = self.check("ckt/Master_ckt.dss")
        self.assertEqual((answer.status, answer.text), (1, ""))

    def test_export(self) -> None:
        """An export of CYME's converters."""
        self.assertEqual(self.check("cyme/master.dss").status, 0)

    def test_long(self) -> None:
        """A street of the 8,500-node feeder."""
        answer = self.check("long/Master.dss")
        self.assertEqual((answer.status, answer.text), (1, ""))


class Solved(unittest.TestCase):
    """The scripts are in the profile as the independent model reads it, and have a state."""

    def per_unit(self, text: str, bus: str, kv: float) -> list[float]:
        """Voltages to ground of a bus's nodes."""
        found = voltages(text, controls_off=False)
        return [abs(v) / kv / 1000 for node, v in found.items() if node.split(".")[0] == bus]

    def test_123_nodes(self) -> None:
        """With its delta transformer anchored; the far end keeps most of its voltage."""
        answer = run("ieee123/IEEE123Master.dss", anchor=True)
        self.assertEqual(answer.status, 0)
        found = self.per_unit(answer.text, "13", 4.16 / 3**0.5)
        self.assertEqual(len(found), 3)
        self.assertTrue(all(0.97 < v < 1.01 for v in found), found)

    def test_circuit(self) -> None:
        """Without its battery and its inverter control."""
        answer = run("ckt/Master_ckt.dss", "storage", "invcontrol")
        self.assertEqual(answer.status, 0)
        found = self.per_unit(answer.text, "s3", 0.12)
        self.assertEqual(len(found), 2)
        self.assertTrue(all(1.0 < v < 1.1 for v in found), found)

    def test_export(self) -> None:
        """The CYME export, by Carson's equations."""
        answer = run("cyme/master.dss")
        found = self.per_unit(answer.text, "t1", 0.6 / 3**0.5)
        self.assertTrue(all(0.99 < v < 1.03 for v in found), found)

    def test_long(self) -> None:
        """The street of the 8,500-node feeder, without the control's override by voltage."""
        answer = run("long/Master.dss", "capcontrol.voltoverride")
        self.assertEqual(answer.status, 0)
        found = self.per_unit(answer.text, "sx2823593a", 0.12)
        self.assertTrue(all(0.9 < v < 1.1 for v in found), found)


if __name__ == "__main__":
    unittest.main()
