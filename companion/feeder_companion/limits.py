"""Limits judged by certified intervals: *violated*, *not violated*, or *not decided* where the limit lies inside one.

A comparison with a limit is exact: squares of whole microvolts with squares of limits, root three nowhere. The command
is `tools/limits REPORT LOW HIGH`, whose status is for continuous integration.
"""

from __future__ import annotations

import argparse
from collections.abc import Iterable, Sequence
from dataclasses import dataclass
from enum import Enum
from fractions import Fraction
from functools import lru_cache

from . import cli
from .decimals import Exact, root_down, root_up
from .intervals import Interval
from .network import Base, Bases, bases_of
from .reports import Report, Settle, read_report
from .script import read_moments


class Verdict(Enum):
    """What a certified interval says of a limit."""

    VIOLATED = "violated"
    NOT_VIOLATED = "not violated"
    NOT_DECIDED = "not decided"


def worst(verdicts: Iterable[Verdict]) -> Verdict:
    """Of several: violated where one is, else not decided where one isn't, else not violated."""
    found = set(verdicts)
    for it in (Verdict.VIOLATED, Verdict.NOT_DECIDED):
        if it in found:
            return it
    return Verdict.NOT_VIOLATED


def at_least(value: Interval, limit: Exact) -> Verdict:
    """Whether the value, known within the interval, is at least the limit."""
    if value.high < limit:
        return Verdict.VIOLATED
    return Verdict.NOT_VIOLATED if value.low >= limit else Verdict.NOT_DECIDED


def at_most(value: Interval, limit: Exact) -> Verdict:
    """Whether the value, known within the interval, is at most the limit."""
    return at_least(-value, -limit)


@dataclass(frozen=True)
class Range:
    """The limits of a voltage, per unit, both allowed."""

    low: Fraction
    high: Fraction

    def __str__(self) -> str:
        return f"{float(self.low):.12g} to {float(self.high):.12g}"


@lru_cache(maxsize=4096)
def least_allowed(square: Fraction, is_between: bool, limit: Fraction) -> int:
    """The least whole number of microvolts that isn't below the limit: a whole size is at least the one where it is the other."""
    return root_up(limit * limit * square * (3 if is_between else 1))


@lru_cache(maxsize=4096)
def greatest_allowed(square: Fraction, is_between: bool, limit: Fraction) -> int:
    """The greatest whole number of microvolts that isn't above the limit."""
    return root_down(limit * limit * square * (3 if is_between else 1))


@dataclass(frozen=True, slots=True)
class Level:
    """A voltage magnitude in microvolts at a bus, to ground or between two phases, in a settle."""

    settle: int
    hour: int
    bus: str
    place: str
    size: Interval
    base: Base
    is_between: bool

    @property
    def name(self) -> str:
        """`BUS.1` to ground, `BUS.1-2` between phases."""
        return f"{self.bus}.{self.place}"

    @property
    def per_unit(self) -> Interval:
        """Of the base, rounded outward to nine decimals."""
        return self.base.per_unit(self.size, self.is_between)

    @property
    def near(self) -> float:
        """The middle per unit, in floating point."""
        return self.base.near(float(self.size.middle), self.is_between)

    def judged(self, limits: Range) -> Verdict:
        """By both limits, exactly."""
        return worst((self.judged_low(limits.low), self.judged_high(limits.high)))

    def judged_low(self, limit: Fraction) -> Verdict:
        """By the lower limit alone, exactly."""
        return at_least(self.size, least_allowed(self.base.square, self.is_between, limit))

    def judged_high(self, limit: Fraction) -> Verdict:
        """By the upper limit alone, exactly."""
        return at_most(self.size, greatest_allowed(self.base.square, self.is_between, limit))

    def margin(self, limits: Range) -> float:
        """How far the middle is inside the limits per unit; below zero where it is outside."""
        return min(self.near - float(limits.low), float(limits.high) - self.near)


def to_ground(settle: Settle, bases: Bases) -> list[Level]:
    """The voltages to ground of the settle's last round; low and high are the report's own."""
    return [
        Level(settle.number, settle.hour, it.bus, str(it.node), it.size, bases.of[it.bus], False)
        for it in settle.last.nodes
        if it.bus in bases.of
    ]


PAIRS = ((1, 2), (2, 3), (3, 1))


def between(settle: Settle, bases: Bases, buses: set[str] | None = None) -> list[Level]:
    """The voltages between the phases of these buses, or of all, in the settle's last round, from the certified parts."""
    voltages = {(it.bus, it.node): it.voltage for it in settle.last.nodes}
    found = []
    for bus in dict.fromkeys(it.bus for it in settle.last.nodes):
        if bus not in bases.of or buses is not None and bus not in buses:
            continue
        for x, y in PAIRS:
            if (bus, x) in voltages and (bus, y) in voltages:
                size = (voltages[bus, x] - voltages[bus, y]).size()
                found.append(Level(settle.number, settle.hour, bus, f"{x}-{y}", size, bases.of[bus], True))
    return found


def levels(settle: Settle, bases: Bases, delta: set[str]) -> list[Level]:
    """What counts at each bus: the voltages between phases at those in delta, and to ground at all others."""
    return [it for it in to_ground(settle, bases) if it.bus not in delta] + between(settle, bases, delta)


# ------------------------------------------------------------------ the command

STATUSES = {Verdict.NOT_VIOLATED: 0, Verdict.VIOLATED: 1, Verdict.NOT_DECIDED: 2}

EPILOG = """status: 0 all surely inside, 1 some surely outside, 2 some not decided (or the report ends with a fault), 64 usage,
65 an unreadable report or script, 66 an absent file. LOW and HIGH are per unit and are themselves allowed."""


def main(words: Sequence[str]) -> int:
    """`tools/limits REPORT LOW HIGH`."""
    parser = cli.Parser(prog="limits", description="Judges the voltages of a report by two limits.", epilog=EPILOG)
    parser.add_argument("report")
    parser.add_argument("low", metavar="LOW", type=cli.exact)
    parser.add_argument("high", metavar="HIGH", type=cli.exact)
    parser.add_argument("--script", help="the report's script: gives bases where the report has none")
    parser.add_argument("--bases", type=cli.kilovolts, metavar="KV,KV", help="bases between phases; needs --script")
    parser.add_argument(
        "--between", action="store_true", help="judges voltages between phases in place of those to ground"
    )
    parser.add_argument("--skip", action="append", default=[], metavar="BUS", help="a bus that isn't judged")
    given = parser.parse_args(words)
    if not 0 < given.low < given.high:
        parser.error("LOW must be above 0 and below HIGH")
    if given.bases and not given.script:
        parser.error("--bases needs --script")
    report = read_report(given.report)
    found = judged_levels(report, given)
    return say(report, found, Range(given.low, given.high))


def judged_levels(report: Report, given: argparse.Namespace) -> list[Level]:
    """The voltages of all settles that came to rest."""
    moments = read_moments(given.script, report) if given.script else []
    bases = bases_of(report, moments[-1].circuit if moments else None, given.bases)
    settles = report.settles_at_rest
    if settles and bases is None:
        raise cli.Quit(cli.Status.BAD_DATA, "the report has no voltage bases: --script gives them")
    skipped = {it.lower() for it in given.skip}
    found: list[Level] = []
    for settle in settles:
        assert bases is not None
        missing = {it.bus for it in settle.last.nodes} - set(bases.of) - skipped
        if missing:
            raise cli.Quit(cli.Status.BAD_DATA, f"bus {min(missing)} has no base: --skip leaves it out")
        found += between(settle, bases) if given.between else to_ground(settle, bases)
    return [it for it in found if it.bus not in skipped]


def say(report: Report, found: list[Level], limits: Range) -> int:
    """Prints what isn't surely inside, and the counts; gives the status."""
    verdicts = [it.judged(limits) for it in found]
    for level, verdict in zip(found, verdicts):
        if verdict is not Verdict.NOT_VIOLATED:
            unit = level.per_unit
            where = f"hour {level.hour}" if level.hour else f"settle {level.settle}"
            word = "surely outside" if verdict is Verdict.VIOLATED else "not decided"
            print(f"{word}: {level.name}, {where}: {unit.low_text(9)} to {unit.high_text(9)} pu")
    counts = {it: verdicts.count(it) for it in Verdict}
    print(
        f"{counts[Verdict.NOT_VIOLATED]} surely inside {limits}, {counts[Verdict.VIOLATED]} surely outside, "
        f"{counts[Verdict.NOT_DECIDED]} not decided"
    )
    answer = worst(verdicts)
    is_whole = report.fault is None and len(report.settles_at_rest) == len(report.settles) and report.settles
    if not is_whole:
        print(f"the report isn't whole: {'fault ' + report.fault.text if report.fault else 'it has no solution'}")
        answer = worst((answer, Verdict.NOT_DECIDED))
    return STATUSES[answer]
