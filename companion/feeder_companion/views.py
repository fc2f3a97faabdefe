"""A report as pictures: voltages by their distance from the source, and a day as an envelope over its hours."""

from __future__ import annotations

from collections.abc import Iterator, Sequence
from dataclasses import dataclass

from .charts import RINGS, Chart, Point, Scale, legend, line, picture, rect, shape, text
from .limits import Level, Range, Verdict, worst
from .network import distances
from .reports import Settle
from .script import Circuit, line_nodes

WIDTH = 1000.0
PLACES = {"1": 1, "2": 2, "3": 3, "1-2": 1, "2-3": 2, "3-1": 3}
"""The phase as which a place of a bus is drawn: its node, or its pair of nodes."""
MOST_STEPS = 800
"""Hours beyond which several are drawn as one, with the least and the greatest of all."""


@dataclass(frozen=True)
class Span:
    """A place's voltage over all settles per unit: the least and the greatest, each with its verdict."""

    bus: str
    place: str
    low: float
    high: float
    low_verdict: Verdict
    high_verdict: Verdict
    title: str

    @property
    def phase(self) -> int:
        return PLACES.get(self.place, 0)


SAYINGS = {Verdict.VIOLATED: ", surely outside", Verdict.NOT_DECIDED: ", not decided", Verdict.NOT_VIOLATED: ""}


def spans(hours: Sequence[Sequence[Level]], limits: Range | None) -> list[Span]:
    """The span of each place over these settles, in the order of the report."""
    found: dict[tuple[str, str], list[Level]] = {}
    for levels in hours:
        for it in levels:
            found.setdefault((it.bus, it.place), []).append(it)
    return [span_of(levels, limits) for levels in found.values()]


def span_of(levels: list[Level], limits: Range | None) -> Span:
    """The span of one place. Its least is judged by the lower limit in all settles, its greatest by the upper."""
    low, high = min(levels, key=lambda it: it.size.low), max(levels, key=lambda it: it.size.high)
    low_verdict = high_verdict = Verdict.NOT_VIOLATED
    if limits is not None:
        low_verdict = worst([low.judged(limits), *(it.judged_low(limits.low) for it in levels)])
        high_verdict = worst([high.judged(limits), *(it.judged_high(limits.high) for it in levels)])
    said = SAYINGS[worst((low_verdict, high_verdict))]
    title = f"{low.name}: {low.per_unit.low_text(9)} to {high.per_unit.high_text(9)} pu{said}"
    return Span(low.bus, low.place, low.near, high.near, low_verdict, high_verdict, title)


# ------------------------------------------------------------------ by distance


def profile(circuit: Circuit, hours: Sequence[Sequence[Level]], limits: Range | None, title: str) -> str:
    """Voltages per unit by distance: a line for each phase along lines, a dotted one through transformers, and marks at buses."""
    found = spans(hours, limits)
    away = {bus: float(length) for bus, length in distances(circuit).items()}
    found = [it for it in found if it.bus in away]
    if not found:
        return ""
    is_day = len(hours) > 1
    values = [it.low for it in found] + [it.high for it in found]
    y = level_scale(values, limits, 56, 396)
    furthest = max(away[it.bus] for it in found)
    chart = Chart(Scale(0, (furthest or 1) * 1.02, 84, WIDTH - 64), y)
    chart.level_axis("voltage, per unit", 8)
    chart.base_axis("distance from the source along lines, km")
    draw_limits(chart, limits)
    draw_segments(chart, circuit, found, away)
    for it in found:
        x = away[it.bus]
        chart.mark((x, it.low), it.phase, it.title, it.low_verdict.value, beside(it))
        if is_day:
            bar = chart.x(x) + beside(it)
            chart.add(line(bar, chart.y(it.low), bar, chart.y(it.high), f"p{it.phase}"))
            chart.mark((x, it.high), it.phase, it.title, it.high_verdict.value, beside(it))
    chart.add(*bus_labels(chart, found, away), phase_legend(found, limits))
    return picture(WIDTH, 540, chart.parts, title)


def beside(span: Span) -> float:
    """How far a phase's marks stand beside their bus, so that equal voltages of three phases are seen."""
    return {1: -4.0, 3: 4.0}.get(span.phase, 0.0)


def level_scale(values: Sequence[float], limits: Range | None, top: float, bottom: float) -> Scale:
    """The axis of voltages: all values, and the limits with room round them."""
    ends = [float(limits.low), float(limits.high)] if limits else []
    low, high = min([*values, *ends]), max([*values, *ends])
    room = (high - low) * 0.06 or 0.01
    return Scale(low - room, high + room, bottom, top)


def draw_limits(chart: Chart, limits: Range | None) -> None:
    if limits is not None:
        chart.limit(float(limits.low), f"{float(limits.low):.12g}", True)
        chart.limit(float(limits.high), f"{float(limits.high):.12g}", False)


def draw_segments(chart: Chart, circuit: Circuit, found: Sequence[Span], away: dict[str, float]) -> None:
    """What joins two buses: lines at both ends of the spans, with the band between, and transformers dotted."""
    spans_at = {(it.bus, it.place): it for it in found}
    for kind, first, second in segments(circuit):
        if first in spans_at and second in spans_at:
            a, b = spans_at[first], spans_at[second]
            x1, x2 = away[a.bus], away[b.bus]
            low, high = [(x1, a.low), (x2, b.low)], [(x1, a.high), (x2, b.high)]
            if kind == "path" and (low != high):
                chart.band(low, high, f"p{a.phase}")
                chart.path(high, f"p{a.phase}")
            chart.path(low, f"p{a.phase} {kind}")


def segments(circuit: Circuit) -> Iterator[tuple[str, tuple[str, str], tuple[str, str]]]:
    """The places that lines (`path`) and transformers (`jump`) join, to ground and between phases."""
    for name, it in circuit.of("line", "transformer"):
        if name.startswith("line."):
            ends = list(zip(line_nodes(it, 1), line_nodes(it, 2)))
            kind = "path"
        else:
            first, second = (bus for bus, _ in it["buses"])
            numbers = it["buses"][1][1][:1] if it["phases"] == 1 else [1, 2, 3]
            ends = [((first, n), (second, n)) for n in numbers or [1]]
            kind = "jump"
        for (bus1, n1), (bus2, n2) in ends:
            yield kind, (bus1, str(n1)), (bus2, str(n2))
        for x, y in ((1, 2), (2, 3), (3, 1)):
            if {x, y} <= {n1 for (_, n1), _ in ends} and all(a[1] == b[1] for a, b in ends):
                yield kind, (ends[0][0][0], f"{x}-{y}"), (ends[0][1][0], f"{x}-{y}")


def bus_labels(chart: Chart, found: Sequence[Span], away: dict[str, float]) -> list[str]:
    """The names of buses below the axis, those that stand too near in one label."""
    names = sorted(dict.fromkeys(it.bus for it in found), key=lambda bus: away[bus])
    groups: list[tuple[float, list[str]]] = []
    for bus in names:
        x = chart.x(away[bus])
        if groups and x - groups[-1][0] < 17:
            groups[-1][1].append(bus)
        else:
            groups.append((x, [bus]))
    parts = []
    for x, buses in groups:
        label = ", ".join(buses[:2]) + (f" +{len(buses) - 2}" if len(buses) > 2 else "")
        parts.append(line(x, chart.bottom + 26, x, chart.bottom + 44, "grid"))
        parts.append(text(x + 4, chart.bottom + 56, label[:12] + ("…" if len(label) > 12 else ""), "end", "soft", -50))
    return parts


def phase_legend(found: Sequence[Span], limits: Range | None) -> str:
    """Shapes with their phases, and rings with their verdicts."""
    places = sorted({it.place for it in found}, key=lambda it: (PLACES.get(it, 9), it))
    entries = [(shape(0, 0, PLACES.get(it, 0)), f"phase {it}") for it in places]
    return legend([*entries, *(RINGS if limits else [])], 250, 20)


# ------------------------------------------------------------------ a day


@dataclass(frozen=True)
class Hours:
    """What a day's chart shows of each settle: its number on the axis, its voltages, its taps and its banks."""

    names: list[int]
    levels: list[list[Level]]
    settles: list[Settle]
    unit: str


def day(hours: Hours, limits: Range | None, title: str) -> str:
    """The least and the greatest voltage of each phase hour by hour, and taps and banks as steps below."""
    blocks = blocks_of(len(hours.names))
    start, end = hours.names[0] - 0.5, hours.names[-1] + 0.5
    phases = sorted({PLACES.get(it.place, 0) for levels in hours.levels for it in levels})
    ends = {phase: envelope(hours, phase, blocks) for phase in phases}
    values = [y for low, high in ends.values() for _, y in [*low, *high]]
    x = Scale(start, end, 84, WIDTH - 64)
    chart = Chart(x, level_scale(values, limits, 56, 330))
    chart.level_axis("voltage over all buses, per unit")
    draw_limits(chart, limits)
    for phase, (low, high) in ends.items():
        chart.band(stairs(low), stairs(high), f"p{phase}")
        chart.path(stairs(low), f"p{phase}")
        chart.path(stairs(high), f"p{phase}")
    strips, bottom = control_strips(hours, x, 366)
    axis = Chart(x, Scale(0, 1, bottom, 56))
    axis.base_axis(hours.unit, 12)
    entries = [(shape(0, 0, it), f"phase {it}" if it else "others") for it in phases]
    parts = [*chart.parts, *strips, *axis.parts, legend(entries, 330, 20)]
    return picture(WIDTH, bottom + 50, parts, title)


def blocks_of(count: int) -> list[range]:
    """Hours as they are drawn: each by itself, or several together where there are too many."""
    size = -(-count // MOST_STEPS)
    return [range(k, min(k + size, count)) for k in range(0, count, size)]


def envelope(hours: Hours, phase: int, blocks: list[range]) -> tuple[list[Point], list[Point]]:
    """The least and the greatest voltage of a phase at the places of the axis; the last place ends the last step."""
    low, high = [], []
    for block in blocks:
        values = [it.near for k in block for it in hours.levels[k] if PLACES.get(it.place, 0) == phase]
        if values:
            low.append((hours.names[block[0]] - 0.5, min(values)))
            high.append((hours.names[block[0]] - 0.5, max(values)))
    end = hours.names[-1] + 0.5
    return low + [(end, y) for _, y in low[-1:]], high + [(end, y) for _, y in high[-1:]]


def stairs(points: Sequence[Point]) -> list[Point]:
    """Points as steps: each value holds to the next place."""
    found = [points[0]] if points else []
    for (_, before), (x, y) in zip(points, points[1:]):
        found += [(x, before), (x, y)]
    return found


def control_strips(hours: Hours, x: Scale, top: float) -> tuple[list[str], float]:
    """A strip of steps for each tap and bank, one below the other; gives where the last one ends."""
    parts: list[str] = []
    for name, values in positions(hours).items():
        is_bank = name.startswith("capacitor.")
        height = 22.0 if is_bank else 46.0
        low, high = (0.0, 1.0) if is_bank else (min(values), max(values))
        if low == high:
            low, high = low - 0.01, high + 0.01
        strip = Chart(x, Scale(low, high, top + height - 4, top + 4))
        points = [(hour - 0.5, value) for hour, value in zip(hours.names, values)]
        if is_bank:
            parts += bank_bars(strip, points)
        else:
            strip.steps(points, "p0")
            ends = f"{min(values):.5f} to {max(values):.5f}" if min(values) < max(values) else f"{values[0]:.5f}"
            strip.add(text(strip.right, top - 2, ends, "end", "soft"))
        label = name if not is_bank else f"{name} closed"
        parts += [line(strip.left, top + height, strip.right, top + height, "grid"), *strip.parts]
        parts.append(text(strip.left, top - 2, label, "start", "soft"))
        top += height + 22
    return parts, top


def bank_bars(strip: Chart, points: Sequence[Point]) -> list[str]:
    """Bars over the hours in which a bank is closed."""
    bars: list[str] = []
    begun: float | None = None
    for place, value in [*points, (points[-1][0] + 1, 0.0)]:
        if value and begun is None:
            begun = place
        elif not value and begun is not None:
            start = strip.x(begun)
            bars.append(rect(start, strip.top, strip.x(place) - start, strip.bottom - strip.top, "p0"))
            begun = None
    return bars


def positions(hours: Hours) -> dict[str, list[float]]:
    """Taps per unit, and 1 for a closed bank, of each settle."""
    found: dict[str, list[float]] = {}
    for settle in hours.settles:
        for tap in settle.taps:
            found.setdefault(tap.control, []).append(tap.tap / 10**5)
        for bank in settle.banks:
            found.setdefault(bank.capacitor, []).append(float(bank.is_closed))
    return {name: values for name, values in found.items() if len(values) == len(hours.settles)}


def worst_buses(hours: Sequence[Sequence[Level]], limits: Range, count: int) -> list[Level]:
    """The worst level of each of the buses that are nearest to a limit or farthest outside, worst first."""
    worst_of: dict[str, Level] = {}
    for levels in hours:
        for it in levels:
            if it.bus not in worst_of or it.margin(limits) < worst_of[it.bus].margin(limits):
                worst_of[it.bus] = it
    return sorted(worst_of.values(), key=lambda it: it.margin(limits))[:count]
