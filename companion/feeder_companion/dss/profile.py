"""Scripts of the profile that feeder reads: their elements, and how they are written."""

from __future__ import annotations

from collections.abc import Iterable, Sequence
from dataclasses import dataclass, field

from .findings import Findings, Place
from .values import Bus, Matrix, decimal

WIDTH = 110
LONGEST_LINE = 65_536
UNKNOWNS = 480
"""The nodes and branch phases that one circuit may have."""
MAGNITUDES = 96
"""The phases of constant-current loads that one circuit may have."""
SHORTEST_NUMBERS = 24

RANGES: dict[str, dict[str, tuple[float, float]]] = {
    "vsource": {
        "basekv": (0.001, 1e3),
        "pu": (0, 2),
        "mvasc3": (0.001, 1e6),
        "mvasc1": (0.001, 1e6),
        "x1r1": (0, 100),
        "x0r0": (0, 100),
        "r1": (0, 1e4),
        "x1": (0, 1e4),
        "r0": (0, 1e4),
        "x0": (0, 1e4),
    },
    "linecode": {
        "r1": (0, 1e4),
        "x1": (0, 1e4),
        "r0": (0, 1e4),
        "x0": (0, 1e4),
        "c1": (0, 1e6),
        "c0": (0, 1e6),
        "rmatrix": (-1e4, 1e4),
        "xmatrix": (-1e4, 1e4),
        "cmatrix": (-1e6, 1e6),
        "nphases": (1, 3),
    },
    "line": {
        "r1": (0, 1e4),
        "x1": (0, 1e4),
        "r0": (0, 1e4),
        "x0": (0, 1e4),
        "c1": (0, 1e6),
        "c0": (0, 1e6),
        "rmatrix": (-1e4, 1e4),
        "xmatrix": (-1e4, 1e4),
        "cmatrix": (-1e6, 1e6),
        "phases": (1, 3),
        "length": (0, 1e6),
    },
    "transformer": {
        "kvs": (0.01, 1e3),
        "kvas": (0.001, 1e6),
        "%rs": (0, 100),
        "xhl": (0, 100),
        "taps": (0.5, 2),
        "mintap": (0.5, 2),
        "maxtap": (0.5, 2),
        "numtaps": (1, 1000),
        "phases": (1, 3),
    },
    "capacitor": {"kvar": (0, 1e5), "kv": (0.01, 1e3), "phases": (1, 3)},
    "load": {
        "kv": (0.01, 1e3),
        "kw": (-3e5, 3e5),
        "kvar": (-3e5, 3e5),
        "vminpu": (0.4, 1),
        "vmaxpu": (1, 2),
        "phases": (1, 3),
    },
    "regcontrol": {
        "vreg": (1, 1e6),
        "band": (0.001, 1e3),
        "ptratio": (0.001, 1e6),
        "ctprim": (0.001, 1e6),
        "r": (-1e3, 1e3),
        "x": (-1e3, 1e3),
        "delay": (0, 1e6),
        "tapdelay": (0, 1e6),
        "maxtapchange": (1, 1e3),
    },
    "capcontrol": {
        "ptratio": (0.001, 1e6),
        "ctratio": (0.001, 1e6),
        "onsetting": (-1e6, 1e6),
        "offsetting": (-1e6, 1e6),
        "delay": (0, 1e6),
        "delayoff": (0, 1e6),
        "deadtime": (0, 1e6),
    },
    "loadshape": {"npts": (0, 8760), "mult": (0, 1e3)},
}


@dataclass
class Item:
    """An element of the profile: its pairs as they are written, and what is said of them."""

    kind: str
    name: str
    pairs: dict[str, str]
    place: Place
    comments: list[str] = field(default_factory=list)

    @property
    def key(self) -> tuple[str, str]:
        """What finds the element."""
        return self.kind, self.name.lower()

    def text(self, name: str, default: str = "") -> str:
        """A pair's value without its brackets, in lower case."""
        return self.pairs.get(name, default).strip("()").lower()

    def number(self, name: str, default: float) -> float:
        """A pair's number."""
        return float(self.text(name) or default)

    def words(self, name: str) -> list[str]:
        """The words of a pair's array."""
        return self.text(name).split()


def array(values: Iterable[float | str | Bus]) -> str:
    """An array as the profile writes it."""
    return "(" + " ".join(decimal(v) if isinstance(v, float | int) else str(v) for v in values) + ")"


def matrix(rows: Matrix) -> str:
    """A matrix as the profile writes it: its lower triangle where it is symmetric."""
    size = len(rows)
    texts = [[decimal(v) for v in row] for row in rows]
    symmetric = all(texts[i][j] == texts[j][i] for i in range(size) for j in range(i))
    shown = [row[: i + 1] if symmetric else row for i, row in enumerate(texts)]
    return "(" + " | ".join(" ".join(row) for row in shown) + ")"


def check_ranges(item: Item, findings: Findings) -> None:
    """Refuses a number that the profile hasn't."""
    for name, (low, high) in RANGES.get(item.kind, {}).items():
        text = item.pairs.get(name)
        if text is None or text.startswith("(file="):
            continue
        for token in text.strip("()").replace("|", " ").split():
            value = float(token)
            if not low <= value <= high or abs(value) >= 1e9:
                reason = f"{name}={token} is outside the profile's {decimal(low)} to {decimal(high)}"
                findings.refuse(item.place, f"{item.kind}.{name}", reason)
                break


def wrapped(head: str, pairs: Sequence[str], comments: Sequence[str]) -> list[str]:
    """A command over as many lines as it needs, its comment at the end of the first or before it."""
    lines, line = [], head
    for pair in pairs:
        if len(line) + 1 + len(pair) > WIDTH and line not in (head, "~"):
            lines.append(line)
            line = "~"
        line += " " + pair
    lines.append(line)
    comment = "; ".join(comments)
    if not comment:
        return lines
    if len(lines[0]) + len(comment) + 3 <= WIDTH + 10:
        return [f"{lines[0]} ! {comment}", *lines[1:]]
    return [*comment_lines(comment), *lines]


def comment_lines(text: str) -> list[str]:
    """A comment over as many lines as it needs."""
    lines, line = [], "!"
    for word in text.split():
        if len(line) + 1 + len(word) > WIDTH and line != "!":
            lines.append(line)
            line = "!"
        line += " " + word
    return [*lines, line]


CLASSES = {"regcontrol": "RegControl", "capcontrol": "CapControl"}


def written(item: Item) -> str:
    """Class and name of an element as they are written."""
    return f"{CLASSES.get(item.kind, item.kind.capitalize())}.{item.name}"


def pair_text(name: str, value: str) -> str:
    """A pair as it is written; those of one winding stand behind its `wdg`."""
    if name.startswith("wdg "):
        return f"wdg={name[4:]} {value}"
    return f"{name}={value}"


def new_lines(item: Item) -> list[str]:
    """The lines that make an element."""
    return wrapped(f"New {written(item)}", [pair_text(k, v) for k, v in item.pairs.items()], item.comments)


def edit_lines(item: Item, pairs: dict[str, str]) -> list[str]:
    """The lines that set pairs of an element that stands above."""
    name = "Vsource.source" if item.kind == "circuit" else written(item)
    return wrapped(f"Edit {name}", [pair_text(k, v) for k, v in pairs.items()], item.comments)


def check_lines(lines: Iterable[str], place: Place, findings: Findings) -> None:
    """Refuses a line that the profile can't hold."""
    if any(len(line.encode()) > LONGEST_LINE for line in lines):
        findings.refuse(place, "line", f"the line would be longer than the profile's {LONGEST_LINE} bytes")
