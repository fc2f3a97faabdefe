"""What a run's reports say of a study's limits."""

from __future__ import annotations

from collections.abc import Iterator
from dataclasses import dataclass, field
from fractions import Fraction

from .changes import MASTER
from .intervals import Interval
from .limits import Level, Verdict, at_most, between, levels, worst
from .network import bases_of, delta_buses
from .plan import Limits
from .powers import Loading, State
from .reports import parse_report
from .runs import Part, Record
from .script import Files, Moment, read_moments
from .store import Store


@dataclass(frozen=True)
class Extreme:
    """The lowest or highest of some quantities: its interval, where, and in which hour (0 in a snapshot)."""

    value: Interval
    where: str
    hour: int


@dataclass
class Judged:
    """The verdict on each limit, over all hours; the hours in which it is violated and in which it isn't decided; extremes."""

    verdicts: dict[str, Verdict] = field(default_factory=dict)
    violated: dict[str, int] = field(default_factory=dict)
    not_decided: dict[str, int] = field(default_factory=dict)
    hours: int = 0
    least: Extreme | None = None
    greatest: Extreme | None = None
    loading: Extreme | None = None
    taps: str = ""


@dataclass(frozen=True)
class Hour:
    """What counts of a settle at rest: its voltages, those between phases, and the loadings, as far as they are limited."""

    hour: int
    levels: list[Level]
    between: list[Level]
    loadings: list[Loading]

    def verdicts(self, limits: Limits) -> dict[str, Verdict]:
        """The verdict on each limit in this hour."""
        found = {}
        if limits.voltage is not None:
            voltage = limits.voltage
            found["voltage"] = worst(it.judged(voltage) for it in self.levels)
        if limits.between is not None:
            phases = limits.between
            found["between"] = worst(it.judged(phases) for it in self.between)
        if limits.loading is not None:
            percent = limits.loading
            found["loading"] = worst(at_most(it.size, percent * it.rating / 100) for it in self.loadings)
        return found


def hours_of_part(part: Part, store: Store, limits: Limits) -> Iterator[Hour]:
    """The settles of a part, one after the other."""
    report = parse_report(store.get(part.report), MASTER)
    held = {name: store.get(digest) for name, digest in part.files.items()}
    moments = read_moments(MASTER, report, Files({MASTER: store.get(part.script), **held}))
    bases = bases_of(report, moments[-1].circuit) if moments else None
    if bases is None:
        return
    delta = delta_buses(moments[-1].circuit)
    for moment in moments:
        if moment.is_last:
            settle = moment.settle
            found = [it for it in levels(settle, bases, delta) if it.bus not in limits.skip]
            pairs = between(settle, bases) if limits.between is not None else []
            yield Hour(
                settle.hour + part.first - 1 if settle.hour else 0,
                found,
                [it for it in pairs if it.bus not in limits.skip],
                loadings(moment, limits),
            )


def loadings(moment: Moment, limits: Limits) -> list[Loading]:
    """The loadings of a moment, where they are limited."""
    return list(State(moment).loadings()) if limits.loading is not None else []


def judge(record: Record, store: Store, limits: Limits) -> Judged:
    """What the parts of a run say; where an hour is missing, no limit is said to hold."""
    judged = Judged()
    names = limits.names()
    seen: dict[str, set[Verdict]] = {it: set() for it in names}
    judged.violated, judged.not_decided = dict.fromkeys(names, 0), dict.fromkeys(names, 0)
    for part in record.parts:
        for hour in hours_of_part(part, store, limits):
            judged.hours += 1
            widen(judged, hour)
            for name, verdict in hour.verdicts(limits).items():
                seen[name].add(verdict)
                judged.violated[name] += verdict is Verdict.VIOLATED
                judged.not_decided[name] += verdict is Verdict.NOT_DECIDED
    is_whole = record.status == 0 and not record.lost and judged.hours == record.asked
    missing = set() if is_whole else {Verdict.NOT_DECIDED}
    judged.verdicts = {name: worst(found | missing) for name, found in seen.items()}
    judged.taps = last_taps(record, store)
    return judged


def widen(judged: Judged, hour: Hour) -> None:
    """Takes the extremes of an hour into those of the run."""
    if hour.levels:
        low = min(hour.levels, key=lambda it: it.near)
        high = max(hour.levels, key=lambda it: it.near)
        if judged.least is None or low.near < judged.least.value.middle:
            judged.least = Extreme(low.per_unit, low.name, hour.hour)
        if judged.greatest is None or high.near > judged.greatest.value.middle:
            judged.greatest = Extreme(high.per_unit, high.name, hour.hour)
    if hour.loadings:
        most = max(hour.loadings, key=lambda it: Fraction(it.size.high, it.rating))
        if judged.loading is None or most.percent.middle > judged.loading.value.middle:
            judged.loading = Extreme(most.percent, f"{most.element} {most.phase}", hour.hour)


def last_taps(record: Record, store: Store) -> str:
    """Taps and banks behind the last hour, in words."""
    if not record.parts:
        return ""
    report = parse_report(store.get(record.parts[-1].report), MASTER)
    last = report.settles[-1] if report.settles else None
    taps = [f"{it.control.partition('.')[2]} {it.tap / 10**5:g}" for it in last.taps] if last else []
    banks = (
        [f"{it.capacitor.partition('.')[2]} {'closed' if it.is_closed else 'open'}" for it in last.banks]
        if last
        else []
    )
    return ", ".join(taps + banks)
