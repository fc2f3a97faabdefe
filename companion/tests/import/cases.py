"""What the tests of single constructs share: a small circuit, and a reader of what its script comes to."""

from __future__ import annotations

import itertools
import tempfile
import unittest
from collections.abc import Mapping, Sequence
from pathlib import Path
from typing import Any


from feeder_companion.dss.command_line import Answer, translate
from feeder_companion.dss.findings import Kind
from feeder_companion.dss.loads import Limits
from feeder_companion.dss.translate import Asked

HEAD = """Clear
New Circuit.c basekv=12.47 mvasc3=1000 mvasc1=1000
New Line.l bus1=sourcebus bus2=b r1=0.1 x1=0.3 r0=0.3 x0=0.9 c1=0 c0=0
"""
FOLDER = tempfile.TemporaryDirectory(prefix="import_dss_")
"""Where sources stand while they are read; it goes when the tests end."""
NUMBERS = itertools.count()
FIRST = 4
"""The number of the first line of a case."""

T, D, N, W, R = Kind.TRANSLATED, Kind.DROPPED, Kind.NOT_CARRIED, Kind.WARNING, Kind.REFUSED
LETTERS = {"T": T, "D": D, "N": N, "W": W, "R": R}


def answer_to(
    lines: str | bytes,
    *without: str,
    head: str = HEAD,
    tail: str = "Solve\n",
    anchor: bool = False,
    limits: Limits = Limits(0.8, 1.2),
    files: Mapping[str, str | bytes] = {},
) -> Answer:
    """What the importer answers to a circuit with these lines."""
    folder = Path(FOLDER.name) / str(next(NUMBERS)) if files else Path(FOLDER.name)
    for name, content in files.items():
        path = folder / name
        path.parent.mkdir(parents=True, exist_ok=True)
        path.write_bytes(content if isinstance(content, bytes) else content.encode())
    data = lines if isinstance(lines, bytes) else (lines.rstrip("\n") + "\n").encode()
    master = folder / "m.dss"
    master.write_bytes(head.encode() + data + tail.encode())
    return translate(master, without, Asked(anchor, limits))


def elements(text: str) -> dict[tuple[str, str], dict[str, Any]]:
    """The circuit of a script at its last Solve, as the independent model reads it."""
    import script

    kept: dict[tuple[str, str], dict[str, Any]] = {}

    def solve(circuit: dict[tuple[str, str], dict[str, Any]], options: dict[str, Any]) -> None:
        kept.clear()
        kept.update({k: dict(v) for k, v in circuit.items()})
        kept[("options", "")] = dict(options)

    fault = script.Script({"m.dss": text.encode()}, solve).read("m.dss", 0, "m.dss")
    assert fault is None, (fault, text)
    return kept


class Constructs(unittest.TestCase):
    """A test that imports a few lines and compares remarks and script."""

    def check(self, lines: str, remarks: Sequence[str], wanted: Sequence[str] = (), **more: Any) -> Answer:
        """Remarks are `LETTER[+OFFSET] words`, all of them; `wanted` are pieces of the script."""
        answer = answer_to(lines, **more)
        found = [(f.kind, f.place.line - FIRST, f"{f.word} {f.text}".strip()) for f in answer.findings.made]
        rest = list(found)
        for remark in remarks:
            mark, _, words = remark.partition(" ")
            offset = int(mark[2:] or 0) if "+" in mark else 0
            hit = next((f for f in rest if f[0] is LETTERS[mark[0]] and f[1] == offset and words in f[2]), None)
            self.assertIsNotNone(hit, f"{remark!r} isn't among {found}")
            rest = [f for f in rest if f is not hit]
        self.assertEqual(rest, [], "remarks that nothing calls for")
        self.assertEqual(answer.status, 1 if any(r.startswith("R") for r in remarks) else 0, answer.remarks)
        if answer.status == 0:
            elements(answer.text)
            flat = answer.text.replace("\n~", "")
            for piece in wanted:
                self.assertIn(piece, flat)
        else:
            self.assertEqual(answer.text, "")
        return answer

    def unreadable(self, lines: str | bytes, offset: int, cause: str, **more: Any) -> None:
        """The source ends with one place and one cause."""
        answer = answer_to(lines, **more)
        self.assertEqual((answer.status, answer.text), (1, ""))
        self.assertIn(f"m.dss:{FIRST + offset}: can't be read: ", answer.remarks[-1])
        self.assertIn(cause, answer.remarks[-1])
