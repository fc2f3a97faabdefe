"""Reports of `feeder solve` as plain records.

A record's numbers are the report's own, as whole numbers of their last decimal: voltages in microvolts, currents in
microamperes, times in milliseconds, taps in 10^-5 per unit, bases in 10^-6 kV. So nothing is rounded by reading.
"""

from __future__ import annotations

import csv
import re
from collections.abc import Callable, Iterator
from dataclasses import dataclass, field
from pathlib import Path
from typing import Any

from . import decimals
from .intervals import Interval, Phasor

STATUS_OF_FAULT = {
    "usage": 2,
    "script": 3,
    "read": 4,
    "no inverse": 6,
    "out of range": 7,
    "not converged": 8,
    "loose": 9,
    "not certified": 10,
    "undecided": 11,
    "control limit": 12,
    "certificate": 13,
    "no such node": 14,
    "not radial": 15,
}
"""The status with which the program ends at each fault."""


class UnreadableReport(Exception):
    """A line that is no record of a report, with its number, counted from 1, and the cause."""

    def __init__(self, name: str, line: int, cause: str) -> None:
        super().__init__(f"{name}: line {line}: {cause}")
        self.name, self.line, self.cause = name, line, cause


@dataclass(frozen=True, slots=True)
class Node:
    """A node's voltage to ground: centre, radius, box, low and high in microvolts, mismatches in microamperes."""

    bus: str
    node: int
    re: int
    im: int
    radius: int
    box: int
    low: int
    high: int
    mismatch_re: int
    mismatch_im: int

    @property
    def name(self) -> str:
        """`BUS.NODE`."""
        return f"{self.bus}.{self.node}"

    @property
    def voltage(self) -> Phasor:
        """The certified parts, in microvolts."""
        return Phasor.around(self.re, self.im, self.radius)

    @property
    def size(self) -> Interval:
        """The certified low and high, in microvolts."""
        return Interval(self.low, self.high)


@dataclass(frozen=True, slots=True)
class Branch:
    """A branch phase's current and its radius in microamperes, its mismatches in microvolts."""

    element: str
    phase: int
    re: int
    im: int
    radius: int
    mismatch_re: int
    mismatch_im: int

    @property
    def current(self) -> Phasor:
        """The certified parts, in microamperes."""
        return Phasor.around(self.re, self.im, self.radius)


@dataclass(frozen=True, slots=True)
class Magnitude:
    """The voltage magnitude of a phase of a load of constant current, its radius, box and mismatch, all in microvolts."""

    element: str
    phase: int
    size: int
    radius: int
    box: int
    mismatch: int


@dataclass(frozen=True, slots=True)
class Act:
    """A control's act: its time in milliseconds, its steps with their sign, and the tap in 10^-5 or the bank's state then."""

    time: int
    control: str
    steps: int
    tap: int | None
    is_closed: bool | None


@dataclass(frozen=True, slots=True)
class Tap:
    """The tap of a RegControl's winding at rest, in 10^-5 per unit."""

    control: str
    tap: int


@dataclass(frozen=True, slots=True)
class Bank:
    """How a capacitor bank stands at rest."""

    capacitor: str
    is_closed: bool


@dataclass(frozen=True, slots=True)
class Pending:
    """A control that still waits behind the last hour: the time at which it is due, in milliseconds, and its way."""

    time: int
    control: str
    is_up: bool


@dataclass(frozen=True, slots=True)
class Short:
    """The current that leaves a node into a short circuit, its radius, low and high, in microamperes."""

    bus: str
    node: int
    re: int
    im: int
    radius: int
    low: int
    high: int


@dataclass(frozen=True, slots=True)
class Sweep:
    """What a ladder sweep comes to beside a solution: the word, and what goes with it, else None.

    That is the unknown that it names; how many sweeps were made, or in which one a part went out of range; and the greatest
    difference from the solution and the bound of it over all parts of voltages, in microvolts.
    """

    answer: str
    unknown: str | None = None
    sweeps: int | None = None
    gap: int | None = None
    radius: int | None = None


@dataclass(slots=True)
class Round:
    """A solved and certified state, and the acts behind it."""

    number: int
    nodes: list[Node] = field(default_factory=list)
    branches: list[Branch] = field(default_factory=list)
    magnitudes: list[Magnitude] = field(default_factory=list)
    acts: list[Act] = field(default_factory=list)


@dataclass(slots=True)
class Settle:
    """A snapshot (hour 0) or an hour of a day: its rounds, where taps and banks rest behind the last, and what still waits.

    That of a short circuit has its currents besides, and that of a sweep what the sweep comes to.
    """

    number: int
    hour: int
    rounds: list[Round] = field(default_factory=list)
    taps: list[Tap] = field(default_factory=list)
    banks: list[Bank] = field(default_factory=list)
    pending: list[Pending] = field(default_factory=list)
    shorts: list[Short] = field(default_factory=list)
    sweep: Sweep | None = None
    is_at_rest: bool = True

    @property
    def last(self) -> Round:
        """The last round: the state at rest, where `is_at_rest`."""
        return self.rounds[-1]


@dataclass(frozen=True, slots=True)
class Fault:
    """What ended the run: the kind, and the fields behind it."""

    kind: str
    fields: tuple[str, ...]

    @property
    def status(self) -> int:
        """The status with which the program ended."""
        return STATUS_OF_FAULT[self.kind]

    @property
    def text(self) -> str:
        """The record's fields behind `fault`."""
        return ",".join((self.kind, *self.fields))


@dataclass(slots=True)
class Report:
    """All records of a report, with bases between phases by bus in 10^-6 kV."""

    name: str
    settles: list[Settle] = field(default_factory=list)
    bases: dict[str, int] = field(default_factory=dict)
    fault: Fault | None = None

    @property
    def settles_at_rest(self) -> list[Settle]:
        """The settles that ended well."""
        return [it for it in self.settles if it.is_at_rest]


WORDS = {True: "closed", False: "open"}
RECORD = re.compile(r'(?:[^"\n]|"(?:[^"]|"")*")*\n')
WRONG_COUNT = "wrong number of fields"
FORM = "a field out of the format"


def read_report(path: str | Path) -> Report:
    """The report that a file holds; raises OSError, or UnreadableReport at its first bad line."""
    return parse_report(Path(path).read_bytes(), str(path))


def parse_report(content: bytes, name: str = "report") -> Report:
    """The report that these bytes are; raises UnreadableReport at the first bad line."""
    report = Report(name)
    for line, fields in lines_of(content, name):
        if report.fault is not None:
            raise UnreadableReport(name, line, "a record behind the fault")
        try:
            add_record(report, fields)
        except BadRecord as bad:
            raise UnreadableReport(name, line, str(bad)) from None
        except ValueError:
            raise UnreadableReport(name, line, FORM) from None
    mark_rest(report)
    return report


def lines_of(content: bytes, name: str) -> Iterator[tuple[int, list[str]]]:
    """The fields of each record, with the number of the line at which it begins."""
    try:
        text = content.decode()
    except UnicodeDecodeError as bad:
        raise UnreadableReport(name, content.count(b"\n", 0, bad.start) + 1, "not UTF-8") from None
    place, line = 0, 1
    while place < len(text):
        match = RECORD.match(text, place)
        if match is None:
            raise UnreadableReport(name, line, "a torn record: no line feed ends it")
        yield line, fields_of(match.group()[:-1], name, line)
        line += match.group().count("\n")
        place = match.end()


def fields_of(record: str, name: str, line: int) -> list[str]:
    """The fields of one record without its line feed."""
    if not record or "\r" in record and "\r" in re.sub('"[^"]*"', "", record):
        raise UnreadableReport(name, line, "an empty line or a carriage return")
    if '"' not in record:
        return record.split(",")
    try:
        return next(csv.reader([record], strict=True))
    except csv.Error:
        raise UnreadableReport(name, line, FORM) from None


class BadRecord(Exception):
    """Why a record is none of a report."""


def add_record(report: Report, fields: list[str]) -> None:
    """Adds one record to the report that was read so far."""
    word, *rest = fields
    if word == "fault":
        report.fault = fault_of(rest)
        return
    if word not in READERS:
        raise BadRecord("unknown record")
    count, read = READERS[word]
    if count is not None and len(rest) != count:
        raise BadRecord(WRONG_COUNT)
    if word not in ("solution", "base") and not report.settles:
        raise BadRecord("no solution before it")
    read(report, rest)


def fault_of(fields: list[str]) -> Fault:
    """The fault of these fields."""
    if not fields:
        raise BadRecord(WRONG_COUNT)
    if fields[0] not in STATUS_OF_FAULT:
        raise BadRecord("unknown fault")
    return Fault(fields[0], tuple(fields[1:]))


def volts(text: str) -> int:
    """Microvolts or microamperes."""
    return decimals.parse(text, decimals.MICRO)


def size(text: str) -> int:
    """Microvolts or microamperes that aren't below zero."""
    if text.startswith("-"):
        raise ValueError(text)
    return volts(text)


def whole(text: str) -> int:
    """A whole number that isn't below zero."""
    if text.startswith("-"):
        raise ValueError(text)
    return decimals.parse(text, 0)


def element(text: str, *classes: str) -> str:
    """`CLASS.NAME` of one of these classes."""
    group, _, name = text.partition(".")
    if group not in classes or not name or not name.isprintable():
        raise ValueError(text)
    return text


def add_solution(report: Report, fields: list[str]) -> None:
    number, hour, turn = (whole(it) for it in fields)
    last = report.settles[-1] if report.settles else None
    if turn == 0 and (last is None or number == last.number + 1):
        report.settles.append(Settle(number, hour))
    elif last is None or (number, hour, turn) != (last.number, last.hour, last.last.number + 1):
        raise BadRecord("a solution out of order")
    report.settles[-1].rounds.append(Round(turn))


def add_node(report: Report, fields: list[str]) -> None:
    bus, _, node = fields[0].partition(".")
    if not bus or not bus.isprintable():
        raise ValueError(fields[0])
    re_, im = volts(fields[1]), volts(fields[2])
    radius, box, low, high, mismatch_re, mismatch_im = (size(it) for it in fields[3:])
    if low > high:
        raise BadRecord("low above high")
    it = Node(bus, whole(node), re_, im, radius, box, low, high, mismatch_re, mismatch_im)
    report.settles[-1].last.nodes.append(it)


def add_branch(report: Report, fields: list[str]) -> None:
    name, phase = element(fields[0], "vsource", "line", "transformer"), whole(fields[1])
    sizes = [size(it) for it in fields[4:]]
    it = Branch(name, phase, volts(fields[2]), volts(fields[3]), *sizes)
    report.settles[-1].last.branches.append(it)


def add_magnitude(report: Report, fields: list[str]) -> None:
    name, phase = element(fields[0], "load"), whole(fields[1])
    it = Magnitude(name, phase, volts(fields[2]), *(size(it) for it in fields[3:]))
    report.settles[-1].last.magnitudes.append(it)


def add_act(report: Report, fields: list[str]) -> None:
    time, control = decimals.parse(fields[0], 3), element(fields[1], "regcontrol", "capcontrol")
    steps, where = decimals.parse(fields[2], 0), fields[3]
    if control.startswith("regcontrol."):
        it = Act(time, control, steps, decimals.parse(where, 5), None)
    else:
        it = Act(time, control, steps, None, is_closed(where))
    report.settles[-1].last.acts.append(it)


def is_closed(word: str) -> bool:
    """Whether the word is `closed`; it must be that or `open`."""
    if word not in WORDS.values():
        raise ValueError(word)
    return word == "closed"


def add_tap(report: Report, fields: list[str]) -> None:
    report.settles[-1].taps.append(Tap(element(fields[0], "regcontrol"), decimals.parse(fields[1], 5)))


def add_bank(report: Report, fields: list[str]) -> None:
    report.settles[-1].banks.append(Bank(element(fields[0], "capacitor"), is_closed(fields[1])))


def add_pending(report: Report, fields: list[str]) -> None:
    if fields[2] not in ("up", "down"):
        raise ValueError(fields[2])
    it = Pending(decimals.parse(fields[0], 3), element(fields[1], "regcontrol", "capcontrol"), fields[2] == "up")
    report.settles[-1].pending.append(it)


def add_short(report: Report, fields: list[str]) -> None:
    if not fields[0] or not fields[0].isprintable():
        raise ValueError(fields[0])
    radius, low, high = (size(it) for it in fields[4:])
    if low > high:
        raise BadRecord("low above high")
    it = Short(fields[0], whole(fields[1]), volts(fields[2]), volts(fields[3]), radius, low, high)
    report.settles[-1].shorts.append(it)


def unknown(text: str) -> str:
    """The name of an unknown or its row, as `b.1 re` or `load.a 1 mag`."""
    if not text or not text.isprintable():
        raise ValueError(text)
    return text


SWEEPS = {
    "agrees": ("sweeps", "gap", "radius"),
    "wide": ("unknown",),
    "apart": ("unknown",),
    "not converged": ("sweeps",),
    "out of range": ("unknown", "sweeps"),
}
"""What a sweep may come to, and the fields behind it."""

SWEEP_FIELDS: dict[str, Callable[[str], Any]] = {"unknown": unknown, "sweeps": whole, "gap": size, "radius": size}
"""What reads each of these fields."""


def add_sweep(report: Report, fields: list[str]) -> None:
    answer, *rest = fields or [""]
    if answer not in SWEEPS:
        raise ValueError(answer)
    names = SWEEPS[answer]
    if len(rest) != len(names):
        raise BadRecord(WRONG_COUNT)
    values = {name: SWEEP_FIELDS[name](text) for name, text in zip(names, rest, strict=True)}
    report.settles[-1].sweep = Sweep(answer, **values)


def add_base(report: Report, fields: list[str]) -> None:
    base = size(fields[1])
    if not fields[0] or not fields[0].isprintable() or base == 0:
        raise ValueError(fields[0])
    report.bases[fields[0]] = base


READERS: dict[str, tuple[int | None, Callable[[Report, list[str]], None]]] = {
    "solution": (3, add_solution),
    "node": (9, add_node),
    "branch": (7, add_branch),
    "magnitude": (6, add_magnitude),
    "act": (4, add_act),
    "tap": (2, add_tap),
    "bank": (2, add_bank),
    "pending": (3, add_pending),
    "short": (7, add_short),
    "ladder": (None, add_sweep),
    "base": (2, add_base),
}
"""The number of fields behind a record's word, where it is always the same, and what reads them."""


def mark_rest(report: Report) -> None:
    """Says of each settle whether it came to rest. None with acts behind its last round did, nor the one that a control ended."""
    for it in report.settles:
        it.is_at_rest = not it.last.acts
    if report.settles and report.fault is not None and report.fault.kind in ("undecided", "control limit"):
        report.settles[-1].is_at_rest = False
