"""A report beside what OpenDSS exported: `Export Voltages`, `Export Currents` or `Export Taps`.

An exported number stands for all that are rounded to it. Where none of these lies between the report's certified low
and high, it is marked *outside*: no state that the report encloses has it. That alone is no fault of either: OpenDSS
ends its iteration at a tolerance of its own, and models some things otherwise; the known causes are named.
"""

from __future__ import annotations

import cmath
import csv
import math
import re
from collections.abc import Callable, Iterator, Sequence
from dataclasses import dataclass
from enum import Enum
from fractions import Fraction
from pathlib import Path

from . import cli
from .intervals import Interval, Phasor
from .network import Bases, bases_of
from .powers import Flow, State, Within
from .reports import Report, Settle, read_report
from .script import Moment, read_moments

SHOWN = 20


class BadExport(Exception):
    """What can't be read of an export, with its line."""

    def __init__(self, path: str, line: int, cause: str) -> None:
        super().__init__(f"{path}: line {line}: {cause}")
        self.line, self.cause = line, cause


class Kind(Enum):
    """What was exported."""

    VOLTAGES = "voltages"
    CURRENTS = "currents"
    TAPS = "taps"


@dataclass(frozen=True)
class Printed:
    """A number as it is printed: all from `value - half` to `value + half` are rounded to it."""

    value: Fraction
    half: Fraction

    def interval(self, scale: int) -> Interval:
        """In units that are so many to one."""
        return Interval((self.value - self.half) * scale, (self.value + self.half) * scale)


@dataclass(frozen=True)
class Entry:
    """An exported magnitude: of a node (`BUS.NODE`), or of a conductor at a terminal (`CLASS.NAME`, terminal, conductor)."""

    name: str
    terminal: int
    conductor: int
    size: Printed
    angle: float | None


@dataclass(frozen=True)
class Export:
    """An export's kind and entries."""

    kind: Kind
    entries: list[Entry]


@dataclass(frozen=True)
class Difference:
    """An exported number beside ours: theirs less ours in the same unit, and by what it is divided for its rank."""

    name: str
    ours: Interval
    theirs: Printed
    difference: Fraction
    share: float
    angle: float | None
    is_outside: bool


# ------------------------------------------------------------------ the export


def printed(text: str) -> Printed:
    """A number with the half of its last digit; raises ValueError."""
    match = re.fullmatch(r"([+-]?)([0-9]*)(?:\.([0-9]*))?(?:[eE]([+-]?[0-9]{1,3}))?", text.strip())
    if not match or not (match[2] or match[3]):
        raise ValueError(f"{text!r} is no number")
    part = match[3] or ""
    unit = Fraction(10) ** (int(match[4] or 0) - len(part))
    value = int(match[2] + part) * unit
    return Printed(-value if match[1] == "-" else value, unit / 2)


def read_export(path: str) -> Export:
    """The export that a file holds; raises OSError, or BadExport."""
    try:
        text = Path(path).read_text(encoding="utf-8-sig")
    except UnicodeDecodeError:
        raise BadExport(path, 1, "not UTF-8") from None
    rows = csv.reader(text.splitlines(), skipinitialspace=True)
    head = [it.strip().lower() for it in next(rows, [])]
    readers: list[tuple[Kind, set[str], Callable[[dict[str, str]], Iterator[Entry]]]] = [
        (Kind.VOLTAGES, {"bus", "node1", "magnitude1"}, voltage_entries),
        (Kind.CURRENTS, {"element", "i1_1"}, current_entries),
        (Kind.TAPS, {"name", "tap"}, tap_entries),
    ]
    for kind, words, read in readers:
        if words <= set(head):
            entries: list[Entry] = []
            for cells in rows:
                if any(it.strip() for it in cells):
                    try:
                        entries += read({word: it.strip() for word, it in zip(head, cells)})
                    except (ValueError, KeyError) as bad:
                        raise BadExport(path, rows.line_num, str(bad)) from None
            return Export(kind, entries)
    raise BadExport(path, 1, "no head of Export Voltages, Export Currents or Export Taps")


def named(text: str) -> str:
    """A name in lower case; raises ValueError where there is none."""
    name = text.strip("\"' ").lower()
    if not name:
        raise ValueError("a row without a name")
    return name


def voltage_entries(row: dict[str, str]) -> Iterator[Entry]:
    """The nodes of a bus: node 0 is none."""
    bus = named(row["bus"])
    for k in range(1, 10):
        node = row.get(f"node{k}", "")
        if node and int(node):
            angle = row.get(f"angle{k}")
            size = printed(row.get(f"magnitude{k}", ""))
            yield Entry(f"{bus}.{int(node)}", 0, 0, size, float(angle) if angle else None)


def current_entries(row: dict[str, str]) -> Iterator[Entry]:
    """The conductors of an element's terminals, without those that carry nothing; residuals are left out."""
    name = named(row["element"])
    for word, text in row.items():
        match = re.fullmatch(r"i([0-9])_([0-9]+)", word)
        if match and text and printed(text).value:
            angle = row.get(f"ang{match[1]}_{match[2]}")
            yield Entry(name, int(match[1]), int(match[2]), printed(text), float(angle) if angle else None)


def tap_entries(row: dict[str, str]) -> Iterator[Entry]:
    """A tap, under the name of its control or of its transformer."""
    yield Entry(named(row["name"]).rpartition(".")[2], 0, 0, printed(row["tap"]), None)


# ------------------------------------------------------------------ differences


def voltage_differences(
    entries: Sequence[Entry], settle: Settle, bases: Bases | None
) -> tuple[list[Difference], list[str]]:
    """Magnitudes in volts, ranked per unit; and the exported nodes that the report hasn't."""
    nodes = {it.name: it for it in settle.last.nodes}
    found, missing = [], []
    for entry in entries:
        it = nodes.get(entry.name)
        if it is None:
            missing.append(entry.name)
            continue
        base = bases.of.get(it.bus) if bases else None
        whole = base.kilovolts / math.sqrt(3) * 1000 if base else float(it.size.middle) / 10**6
        found.append(difference(entry, it.name, it.size, it.voltage, whole))
    return found, missing


def difference(entry: Entry, name: str, size: Interval, phasor: Phasor, whole: float) -> Difference:
    """An exported magnitude beside ours, in volts or amperes."""
    theirs = entry.size.interval(10**6)
    is_outside = theirs.high < size.low or theirs.low > size.high
    value = entry.size.value - size.middle / 10**6
    ours = math.degrees(cmath.phase(complex(phasor.re.middle, phasor.im.middle)))
    turn = None if entry.angle is None else (entry.angle - ours + 180) % 360 - 180
    return Difference(
        name,
        size.scaled(Fraction(1, 10**6)),
        entry.size,
        value,
        float(value) / whole if whole else 0,
        turn,
        is_outside,
    )


def current_differences(entries: Sequence[Entry], moment: Moment) -> tuple[list[Difference], list[str]]:
    """Magnitudes in amperes at the conductors of terminals, ranked by their share of the greatest current of the terminal."""
    ours = conductors(moment)
    found, missing = [], []
    for entry in entries:
        name = f"{entry.name} {entry.terminal}.{entry.conductor}"
        currents = ours.get((entry.name, entry.terminal), [])
        if entry.conductor > len(currents):
            missing.append(name)
            continue
        sizes = [it.size() for it in currents]
        whole = max(float(it.middle) for it in sizes) / 10**6
        found.append(difference(entry, name, sizes[entry.conductor - 1], currents[entry.conductor - 1], whole))
    return found, missing


def conductors(moment: Moment) -> dict[tuple[str, int], list[Phasor]]:
    """The current that enters an element at each conductor of each terminal: its nodes in the order of the script."""
    flows: dict[tuple[str, int], list[Flow]] = {}
    for it in State(moment).flows():
        flows.setdefault((it.element, it.terminal), []).append(it)
    found = {}
    for key, phases in flows.items():
        nodes: dict[tuple[str, int], Phasor] = {}
        for node in [it.nodes[0] for it in phases] + [it.nodes[1] for it in phases]:
            nodes.setdefault(node, Phasor(Interval(0, 0), Interval(0, 0)))
        for it in phases:
            first, second = it.nodes
            nodes[first] = nodes[first] + it.current
            nodes[second] = nodes[second] - it.current
        found[key] = list(nodes.values())
    return found


def tap_differences(
    entries: Sequence[Entry], settle: Settle, moment: Moment | None
) -> tuple[list[Difference], list[str]]:
    """Taps per unit. The name may be the control's, or with the script its transformer's."""
    ours = {it.control.partition(".")[2]: it.tap for it in settle.taps}
    if moment is not None:
        for name, it in moment.circuit.of("regcontrol"):
            control = name.partition(".")[2]
            if control in ours:
                ours.setdefault(it["transformer"], ours[control])
    found, missing = [], []
    for entry in entries:
        if entry.name not in ours:
            missing.append(entry.name)
            continue
        tap = Fraction(ours[entry.name], 10**5)
        value = entry.size.value - tap
        is_outside = not entry.size.interval(1).holds(tap)
        found.append(Difference(entry.name, Interval.exactly(tap), entry.size, value, float(value), None, is_outside))
    return found, missing


# ------------------------------------------------------------------ known causes


def causes(found: list[Difference], kind: Kind, settle: Settle, moment: Moment | None) -> Iterator[str]:
    """What is known to make such differences, as far as report and script show that it may be there."""
    greatest = max((abs(it.share) for it in found), default=0.0)
    if kind is Kind.TAPS:
        yield "OpenDSS counts steps to the middle of the band otherwise, and rests at another tap of the same band."
        return
    if greatest < 2e-4:
        yield "All differences are below 0.0002: OpenDSS ends its iteration at its own tolerance, 0.0001 unless it is set."
    if settle.taps:
        yield "The report has regulators: compare Export Taps first, as one step moves voltages by about 0.006 per unit."
    if moment is None:
        yield "With --script, causes in the script are looked for."
        return
    yield from script_causes(moment)


def script_causes(moment: Moment) -> Iterator[str]:
    """Causes that the script shows."""
    lines = [it for _, it in moment.circuit.of("line")]
    if any(it["cform"] is None for it in lines):
        yield "Lines without capacitance: OpenDSS charges them by default (c1=3.4, c0=1.6 nF a unit of length), feeder doesn't."
    if any(it["zform"] == "sequence" and (it["r0"] is None or it["x0"] is None) for it in lines):
        yield "Lines without r0 or x0: OpenDSS has defaults of its own, feeder takes r1 and x1."
    if any(it["zform"] == "matrix" and (it["rmatrix"] is None or it["xmatrix"] is None) for it in lines):
        yield "Lines with one of rmatrix and xmatrix: feeder takes the other as zero."
    if any(True for _ in moment.circuit.of("transformer")):
        yield "Transformers: OpenDSS ties windings to ground by ppm_antifloat, a millionth of their power, feeder doesn't."
    loads = list(State(moment).loads())
    if any(it.within is not Within.WITHIN for it in loads):
        yield "Loads outside vminpu to vmaxpu (tools/tables lists them): there both draw otherwise than they are given."
    if any(it["model"] == 5 for _, it in moment.circuit.of("load")):
        yield "Loads of model 5: constant magnitude of current, in OpenDSS by the voltage of its last step."


# ------------------------------------------------------------------ the command


def chosen(report: Report, number: int | None) -> Settle:
    """The settle of this number, or the last that came to rest."""
    settles = [it for it in report.settles_at_rest if number is None or it.number == number]
    if not settles:
        raise cli.Quit(cli.Status.BAD_DATA, "the report has no such state at rest")
    return settles[-1]


HEAD = ["name:printed", "low:certified", "high:certified", "opendss:printed", "difference:computed", "share:computed"]


def write_csv(path: str, found: list[Difference], kind: Kind) -> None:
    """All differences, greatest first."""
    standing = {Kind.VOLTAGES: "certified", Kind.CURRENTS: "outward", Kind.TAPS: "certified"}[kind]
    with open(path, "w", encoding="utf-8", newline="") as file:
        writer = csv.writer(file, lineterminator="\n")
        writer.writerow([it.replace("certified", standing) for it in HEAD] + ["degrees:computed", "outside:outward"])
        for it in found:
            writer.writerow([it.name, *row_texts(it)])


def row_texts(it: Difference) -> list[str]:
    """Low, high, theirs, difference, share, degrees, and whether it is outside."""
    degrees = "" if it.angle is None else f"{it.angle:.4f}"
    numbers = [it.ours.low_text(6), it.ours.high_text(6), f"{float(it.theirs.value):.6g}"]
    return [*numbers, f"{float(it.difference):.6f}", f"{it.share:.6f}", degrees, "yes" if it.is_outside else "no"]


def say(found: list[Difference], missing: list[str], kind: Kind, count: int) -> None:
    """Prints the greatest differences."""
    unit = {Kind.VOLTAGES: "V", Kind.CURRENTS: "A", Kind.TAPS: "pu"}[kind]
    share = {Kind.VOLTAGES: "per unit", Kind.CURRENTS: "of terminal", Kind.TAPS: "per unit"}[kind]
    titles = ["name", f"low, {unit}", f"high, {unit}", "OpenDSS", "difference", share, "degrees", "outside"]
    rows = [titles] + [[it.name, *row_texts(it)] for it in found[:count]]
    widths = [max(len(row[k]) for row in rows) for k in range(len(titles))]
    for row in rows:
        print(
            "  ".join(
                cell.ljust(width) if k == 0 else cell.rjust(width) for k, (cell, width) in enumerate(zip(row, widths))
            ).rstrip()
        )
    outside = sum(it.is_outside for it in found)
    print(
        f"{len(found)} {kind.value} compared, {outside} outside the report's intervals, {len(missing)} that the report hasn't"
    )
    if missing:
        print(f"the report hasn't: {', '.join(missing[:8])}{' ..' if len(missing) > 8 else ''}")


def compared(
    export: Export, settle: Settle, moment: Moment | None, bases: Bases | None
) -> tuple[list[Difference], list[str]]:
    """The differences of an export, greatest first, and what the report hasn't."""
    if export.kind is Kind.VOLTAGES:
        found, missing = voltage_differences(export.entries, settle, bases)
    elif export.kind is Kind.TAPS:
        found, missing = tap_differences(export.entries, settle, moment)
    elif moment is None:
        raise cli.Quit(cli.Status.USAGE, "Export Currents needs --script")
    else:
        found, missing = current_differences(export.entries, moment)
    return sorted(found, key=lambda it: -abs(it.share)), missing


def main(words: Sequence[str]) -> int:
    """`tools/compare REPORT EXPORT.csv`."""
    parser = cli.Parser(prog="compare", description="Sets an export of OpenDSS beside a report.")
    parser.add_argument("report")
    parser.add_argument("export", metavar="EXPORT.csv")
    parser.add_argument("--script", help="the report's script: for currents, bases, and causes")
    parser.add_argument("--settle", type=int, metavar="N", help="the settle to compare (the last at rest)")
    parser.add_argument("--csv", metavar="FILE", help="writes all differences")
    parser.add_argument("--all", action="store_true", help=f"prints all, not the {SHOWN} greatest")
    parser.add_argument("--tolerance", type=cli.exact, metavar="SHARE", help="status 1 where a share is above it")
    given = parser.parse_args(words)
    report = read_report(given.report)
    try:
        export = read_export(given.export)
    except BadExport as bad:
        raise cli.Quit(cli.Status.BAD_DATA, str(bad)) from None
    settle = chosen(report, given.settle)
    moments = read_moments(given.script, report) if given.script else []
    moment = next((it for it in moments if it.settle is settle and it.is_last), None)
    bases = bases_of(report, moment.circuit if moment else None)
    found, missing = compared(export, settle, moment, bases)
    say(found, missing, export.kind, len(found) if given.all else SHOWN)
    if any(it.difference for it in found):
        print("known causes of differences:")
        for cause in causes(found, export.kind, settle, moment):
            print(f"- {cause}")
    if given.csv:
        write_csv(given.csv, found, export.kind)
    return 1 if given.tolerance is not None and any(abs(it.share) > given.tolerance for it in found) else 0
