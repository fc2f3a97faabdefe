"""One HTML page of a script and its report: `tools/page SCRIPT REPORT`. It needs no other file and no network."""

from __future__ import annotations

from collections.abc import Sequence
from dataclasses import dataclass
from fractions import Fraction
from pathlib import Path

from . import cli, markup
from .decimals import show
from .limits import Level, Range, Verdict, levels
from .markup import Cell, definitions, tag, text_tag, verdict_cell
from .network import Bases, bases_of, delta_buses
from .intervals import sum_of
from .powers import State, Within
from .reports import WORDS, Report, read_report
from .script import Moment, read_moments
from .store import digest_of_file
from .tables import nodes_text
from .views import Hours, day, profile, worst_buses

WORST = 10
SAYINGS = {
    Verdict.VIOLATED: "surely outside",
    Verdict.NOT_DECIDED: "not decided",
    Verdict.NOT_VIOLATED: "surely inside",
}


@dataclass(frozen=True)
class Subject:
    """What a page is of: a report with its moments, bases and limits."""

    report: Report
    moments: list[Moment]
    bases: Bases
    limits: Range
    is_between: bool | None

    @property
    def last(self) -> Moment:
        return self.moments[-1]

    @property
    def is_day(self) -> bool:
        """Whether it has hours."""
        return any(it.settle.hour for it in self.moments)

    def hour_cell(self, moment: Moment) -> list[str]:
        """The hour of a moment in a table's row, where there are hours."""
        return [str(moment.settle.hour or "")] if self.is_day else []

    def delta(self) -> set[str]:
        """The buses that are judged between phases: those in delta, all, or none."""
        if self.is_between is None:
            return delta_buses(self.last.circuit)
        return {it.bus for it in self.last.round.nodes} if self.is_between else set()

    def hours(self) -> list[list[Level]]:
        """What is judged, in each settle."""
        delta = self.delta()
        return [levels(it.settle, self.bases, delta) for it in self.moments]


def saying(verdict: Verdict) -> Cell:
    """A verdict in the page's words."""
    return Cell(SAYINGS[verdict], verdict_cell(verdict.value).kind)


def report_page(script: Path, given: Path, subject: Subject | None, report: Report) -> str:
    """The page."""
    parts = [text_tag("h1", script.name), text_tag("p", "A certified power flow, looked at.", class_="lead")]
    files = [
        ("Script", f"{script}, sha256 {digest_of_file(script)}"),
        ("Report", f"{given}, sha256 {digest_of_file(given)}"),
    ]
    if subject is None:
        parts += [definitions([*files, ("Ended", ending(report))]), warning(report)]
        return markup.page(script.name, [*parts, text_tag("p", "No state came to rest, so there is nothing to draw.")])
    hours = subject.hours()
    parts += [definitions([*files, *facts(subject, hours)]), warning(report)]
    parts += profiles(subject, hours)
    parts += day_part(subject, hours)
    parts += worst_part(subject, hours)
    parts += [loads_part(subject), loadings_part(subject), losses_part(subject), acts_part(report), NOTES]
    return markup.page(script.name, parts)


def ending(report: Report) -> str:
    """How the run ended."""
    return (
        f"fault {report.fault.text}, status {report.fault.status}" if report.fault else "done to the end of the script"
    )


def warning(report: Report) -> str:
    """That a fault ended the run."""
    if report.fault is None:
        return ""
    return text_tag(
        "p", f"The run ended with fault {report.fault.text}: what is shown stands before it.", class_="warning"
    )


def facts(subject: Subject, hours: Sequence[Sequence[Level]]) -> list[tuple[str, str]]:
    """What the page is of, in a few lines."""
    verdicts = [it.judged(subject.limits) for found in hours for it in found]
    counts = ", ".join(f"{verdicts.count(it)} {SAYINGS[it]}" for it in Verdict)
    settles, nodes = len(subject.moments), len(subject.last.round.nodes)
    rounds = sum(len(it.settle.rounds) for it in subject.moments)
    return [
        ("Solved", f"{plural(settles, 'state')} at rest of {plural(nodes, 'node')}, in {plural(rounds, 'round')}"),
        ("Ended", ending(subject.report)),
        ("Per unit by", subject.bases.source.value),
        ("Limits", f"{subject.limits} per unit"),
        ("Voltages", counts),
    ]


def plural(count: int, word: str) -> str:
    """A count with its word."""
    return f"{count} {word}{'' if count == 1 else 's'}"


def profiles(subject: Subject, hours: Sequence[Sequence[Level]]) -> list[str]:
    """The picture of voltages to ground, and that between phases."""
    parts = []
    over = f", over {len(hours)} states: from the least to the greatest" if len(hours) > 1 else ""
    for is_between, title in ((False, "Voltages to ground"), (True, "Voltages between phases")):
        found = [[it for it in levels if it.is_between == is_between] for levels in hours]
        if any(found):
            said = f"{title} by distance from the source"
            parts += [text_tag("h2", said), profile(subject.last.circuit, found, subject.limits, said + over)]
            why = (
                " Buses fed by windings in delta are drawn here: their voltages to ground say nothing."
                if is_between
                else ""
            )
            hint = "Under the pointer a mark shows its certified low and high."
            parts.append(
                text_tag("p", f"A line for each phase{over}; dotted through transformers.{why} {hint}", class_="note")
            )
    return parts


def day_part(subject: Subject, hours: list[list[Level]]) -> list[str]:
    """The picture of a day, where there is more than one settle."""
    if len(hours) < 2:
        return []
    settles = [it.settle for it in subject.moments]
    is_one_day = [it.hour for it in settles] == list(range(1, len(settles) + 1))
    names = [it.hour if is_one_day else it.number for it in settles]
    unit = "hour" if is_one_day else "settle"
    title = f"{'A day' if is_one_day else 'All settles'}: the least and the greatest voltage"
    chart = day(Hours(names, hours, settles, unit), subject.limits, title)
    note = "The band of a phase reaches from the lowest to the highest of all its buses. Below stand taps and banks at rest."
    return [text_tag("h2", title), chart, text_tag("p", note, class_="note")]


def worst_part(subject: Subject, hours: Sequence[Sequence[Level]]) -> list[str]:
    """The worst buses."""
    found = worst_buses(hours, subject.limits, WORST)
    is_day = subject.is_day
    head = [("bus", "", True), ("low, V", "certified", False), ("high, V", "certified", False)]
    head += [("low, pu", "outward", False), ("high, pu", "outward", False), ("verdict", "outward", True)]
    head += [("hour", "", False)] if is_day else []
    rows = []
    for it in found:
        volts = [show(int(end), 6) for end in (it.size.low, it.size.high)]
        unit = it.per_unit
        row = [it.name, *volts, unit.low_text(9), unit.high_text(9), saying(it.judged(subject.limits))]
        rows.append([*row, str(it.hour)] if is_day else row)
    caption = "The place of each bus that is farthest outside the limits, or nearest to one. Between phases low and high are outward."
    return [text_tag("h2", f"The {len(found)} worst buses"), markup.table(head, rows, caption)]


def loads_part(subject: Subject) -> str:
    """Loads that stand outside their own limits and so don't draw what they are given."""
    head = [("load", "", True), ("at", "", True), ("low, pu of its kv", "outward", False)]
    head += [("high, pu of its kv", "outward", False), ("stands", "outward", True)]
    head += [("given, kW", "script", False), ("draws, kW", "computed", False)]
    head += [("hour", "", False)] if subject.is_day else []
    rows = []
    for moment in subject.moments:
        for it in State(moment).loads():
            if it.within is Within.WITHIN or moment.circuit[it.element]["model"] == 2:
                continue
            drawn, unit = it.drawn.kilo.p, it.size.scaled(Fraction(1, it.nominal))
            asked = it.asked.kilo.p.middle_text(3)
            row = [it.element, nodes_text(it.nodes), unit.low_text(6), unit.high_text(6), it.within.value, asked]
            rows.append([*row, drawn.middle_text(3), *subject.hour_cell(moment)])
    title = text_tag("h2", "Loads outside their limits")
    if not rows:
        return title + text_tag("p", "None: each load draws what the script gives it.")
    note = "Below vminpu a load is an impedance and draws less than its kw, above vmaxpu more."
    return title + markup.table(head, rows[:200], note + (f" 200 of {len(rows)} are shown." if len(rows) > 200 else ""))


def loadings_part(subject: Subject) -> str:
    """The highest loading of each line that has a rating."""
    most: dict[str, tuple[Fraction, list[str]]] = {}
    for moment in subject.moments:
        for it in State(moment).loadings():
            percent = it.percent
            if it.element not in most or percent.middle > most[it.element][0]:
                amperes = f"{float(it.size.middle) / 10**6:.3f}"
                row = [
                    it.element,
                    str(it.phase),
                    amperes,
                    f"{it.rating / 10**6:g}",
                    percent.low_text(4),
                    percent.high_text(4),
                ]
                most[it.element] = percent.middle, [*row, *subject.hour_cell(moment)]
    if not most:
        return ""
    head = [("line", "", True), ("phase", "", False), ("current, A", "computed", False), ("normamps", "script", False)]
    head += [("low, %", "outward", False), ("high, %", "outward", False)]
    head += [("hour", "", False)] if subject.is_day else []
    rows = [row for _, row in sorted(most.values(), key=lambda it: -it[0])]
    return text_tag("h2", "Loading of lines") + markup.table(
        head, rows[:20], "The highest of each line, most loaded first."
    )


def losses_part(subject: Subject) -> str:
    """Sources and losses of the last state."""
    state = State(subject.last)
    given = -sum_of(it.power for it in state.flows() if it.element.startswith("vsource.")).kilo
    lost = [(it.element, it.total.kilo) for it in state.losses()]
    lost.sort(key=lambda it: -it[1].p.middle)
    rows = [("given by sources", given), ("lost in all", sum_of(it for _, it in lost)), *lost[:8]]
    head = [("", "", True), ("kW, low", "outward", False), ("kW, high", "outward", False)]
    head += [("kvar, low", "outward", False), ("kvar, high", "outward", False)]
    cells = [[name, it.p.low_text(4), it.p.high_text(4), it.q.low_text(4), it.q.high_text(4)] for name, it in rows]
    hour = f" of hour {subject.last.settle.hour}" if subject.last.settle.hour else ""
    caption = (
        f"The state{hour}, with the eight elements that lose most; charging of lines counts as lost kvar below zero."
    )
    return text_tag("h2", "Powers and losses") + markup.table(head, cells, caption)


def acts_part(report: Report) -> str:
    """What controls did."""
    is_day = any(it.hour for it in report.settles)
    rows = []
    for settle in report.settles:
        for turn in settle.rounds:
            for it in turn.acts:
                after = show(it.tap, 5) if it.tap is not None else WORDS[bool(it.is_closed)]
                hour = [str(settle.hour or "")] if is_day else []
                rows.append([*hour, show(it.time, 3), it.control, f"{it.steps:+d}", after])
    if not rows:
        return ""
    head = [("hour", "", False)] if is_day else []
    head += [("time, s", "certified", False), ("control", "", True)]
    head += [("steps", "certified", False), ("leaves it at", "certified", True)]
    caption = "Each act is the one at every state within the radii." + (
        f" 300 of {len(rows)} are shown." if len(rows) > 300 else ""
    )
    return text_tag("h2", "Acts of controls") + markup.table(head, rows[:300], caption)


NOTES = text_tag("h2", "What the numbers stand on") + tag(
    "ul",
    "".join(
        tag("li", it)
        for it in (
            "<b>certified</b>: printed by the program, and part of what it proves of each state: every state in the box that "
            "meets the circuit's equations as closely as the printed mismatches lies between low and high.",
            "<b>outward</b>: made of certified numbers in exact arithmetic and rounded outward. It holds for the same states, "
            "but this page's program isn't proved, nor its reading of the script.",
            "<b>script</b>: read from the script. <b>computed</b>: rounded to the nearest, to be looked at.",
            "<b>surely outside</b>: the whole interval lies beyond a limit. <b>not decided</b>: a limit lies inside the "
            "interval. A limit itself is allowed. Pictures are drawn in floating point.",
        )
    ),
)


def subject_of(
    report: Report, script: str, limits: Range, bases: list[Fraction] | None, is_between: bool | None
) -> Subject | None:
    """What the page is of; None where no state came to rest."""
    if not report.settles_at_rest:
        return None
    moments = [it for it in read_moments(script, report) if it.is_last]
    found = bases_of(report, moments[-1].circuit, bases) if moments else None
    return Subject(report, moments, found, limits, is_between) if found else None


def main(words: Sequence[str]) -> int:
    """`tools/page SCRIPT REPORT`."""
    parser = cli.Parser(prog="page", description="Writes one HTML page of a script and its report on standard output.")
    parser.add_argument("script")
    parser.add_argument("report")
    parser.add_argument(
        "--limits", nargs=2, metavar=("LOW", "HIGH"), type=cli.exact, default=None, help="per unit (0.95 1.05)"
    )
    parser.add_argument(
        "--bases", type=cli.kilovolts, metavar="KV,KV", help="bases between phases, in place of the report's"
    )
    group = parser.add_mutually_exclusive_group()
    group.add_argument("--between", action="store_true", help="judges all buses between phases")
    group.add_argument("--ground", action="store_true", help="judges all buses to ground")
    given = parser.parse_args(words)
    low, high = given.limits or (Fraction("0.95"), Fraction("1.05"))
    if not 0 < low < high:
        parser.error("LOW must be above 0 and below HIGH")
    report = read_report(given.report)
    is_between = True if given.between else False if given.ground else None
    subject = subject_of(report, given.script, Range(low, high), given.bases, is_between)
    print(report_page(Path(given.script), Path(given.report), subject, report), end="")
    return 0
