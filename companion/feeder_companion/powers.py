"""Powers, losses and loadings of a certified state, from its voltages and currents, in intervals.

A report has no powers. Here they are made of the printed voltages and currents with their radii, by the formulas of
docs/REPORT.md and docs/MODELS.md, in exact arithmetic of intervals. So each interval holds the power of every state for
which the report's radii hold; but this program isn't proved, and neither is its reading of the script.

A power is what the element takes up at a terminal: what comes out is below zero. Voltages are in microvolts, currents in
microamperes, powers in 10^-12 VA.
"""

from __future__ import annotations

from collections.abc import Iterator
from dataclasses import dataclass
from enum import Enum
from fractions import Fraction
from math import isqrt

from .decimals import nearest
from .intervals import GROUND, NO_POWER, ZERO, Interval, Phasor, Power, sum_of
from .script import ONE, Circuit, Element, Moment, line_nodes, model_elements, model_script

Terminal = tuple[tuple[str, int], tuple[str, int]]
"""The two nodes, as bus and number, between which a phase stands; number 0 is ground."""


@dataclass(frozen=True, slots=True)
class Flow:
    """What an element takes up at a phase of a terminal: the nodes there, the current that enters and the power.

    `charging` is the part of both that a line's capacitance there takes; `power` doesn't hold it, `current` does.
    """

    element: str
    terminal: int
    phase: int
    nodes: Terminal
    current: Phasor
    power: Power
    charging: Power = NO_POWER


@dataclass(frozen=True, slots=True)
class Loss:
    """What a line or transformer takes up in all: its series losses, and a line's charging."""

    element: str
    series: Power
    charging: Power

    @property
    def total(self) -> Power:
        """Both together."""
        return self.series + self.charging


@dataclass(frozen=True, slots=True)
class Loading:
    """The magnitude of a line's current at a terminal, charging included, and its rating, both in microamperes."""

    element: str
    terminal: int
    phase: int
    size: Interval
    rating: int

    @property
    def percent(self) -> Interval:
        """The current in percent of the rating."""
        return self.size.scaled(Fraction(100, self.rating))


class Within(Enum):
    """Where a load's voltage stands by its limits."""

    BELOW = "below"
    WITHIN = "within"
    ABOVE = "above"
    NOT_DECIDED = "not decided"


@dataclass(frozen=True, slots=True)
class LoadPhase:
    """A phase of a load: the magnitude of its voltage, its nominal voltage, its limits, and where it stands by them.

    `asked` is the power that the script gives it at this hour, `drawn` what it draws, `current` what enters at its first node.
    """

    element: str
    phase: int
    nodes: Terminal
    size: Interval
    nominal: int
    low: int
    high: int
    asked: Power
    drawn: Power
    current: Phasor
    within: Within


class State:
    """The voltages and currents of a moment by their names."""

    def __init__(self, moment: Moment) -> None:
        self.moment, self.circuit = moment, moment.circuit
        self.nodes = {(it.bus, it.node): it.voltage for it in moment.round.nodes}
        self.branches = {(it.element, it.phase): it.current for it in moment.round.branches}
        self.magnitudes = {
            (it.element, it.phase): Interval.around(it.size, it.radius) for it in moment.round.magnitudes
        }

    def voltage(self, node: tuple[str, int]) -> Phasor:
        """The voltage of a node to ground."""
        return self.nodes[node] if node[1] else GROUND

    def across(self, nodes: Terminal) -> Phasor:
        """The voltage from the first node to the second."""
        return self.voltage(nodes[0]) - self.voltage(nodes[1])

    # ------------------------------------------------------------ flows

    def flows(self) -> Iterator[Flow]:
        """What each element takes up, in order of definition."""
        makers = {
            "vsource": self.source_flows,
            "line": self.line_flows,
            "transformer": self.transformer_flows,
            "capacitor": self.capacitor_flows,
            "load": self.load_flows,
        }
        for name, it in self.circuit.of(*makers):
            yield from makers[name.partition(".")[0]](name, it)

    def source_flows(self, name: str, it: Element) -> Iterator[Flow]:
        bus, numbers = it["bus1"]
        found = model_elements.three(numbers) if it["phases"] == 3 else (numbers or [1])[:1]
        for k, number in enumerate(found):
            nodes = ((bus, number), (bus, 0))
            current = -self.branches[name, k + 1]
            yield Flow(name, 1, k + 1, nodes, current, self.across(nodes).power(current))

    def line_flows(self, name: str, it: Element) -> Iterator[Flow]:
        for end, sign in ((1, 1), (2, -1)):
            shunts = self.charging(it, end)
            for k, node in enumerate(line_nodes(it, end)):
                nodes = (node, (node[0], 0))
                series = self.branches[name, k + 1].scaled(sign)
                voltage = self.across(nodes)
                yield Flow(name, end, k + 1, nodes, series + shunts[k], voltage.power(series), voltage.power(shunts[k]))

    def charging(self, it: Element, end: int) -> list[Phasor]:
        """The current that each phase's capacitance draws at one end of a line."""
        voltages = [self.voltage(node) for node in line_nodes(it, end)]
        found = []
        for row in model_elements.line_charging(it, self.circuit.hertz):
            current = GROUND
            for (susceptance, denominator), voltage in zip(row, voltages):
                if susceptance:
                    current = current + voltage.turned(Fraction(susceptance, denominator))
            found.append(current)
        return found

    def transformer_flows(self, name: str, it: Element) -> Iterator[Flow]:
        ratio = self.ratio(name, it)
        for winding, factor in ((1, ratio), (2, Fraction(-1))):
            for k, nodes in enumerate(self.winding(it, winding)):
                current = self.branches[name, k + 1].scaled(factor)
                yield Flow(name, winding, k + 1, nodes, current, self.across(nodes).power(current))

    def ratio(self, name: str, it: Element) -> Fraction:
        """The turns ratio at the moment's taps: winding 2 to winding 1."""
        first, second = (model_elements.u_of(it["kvs"][w], it["phases"], it["conns"][w]) for w in (0, 1))
        taps = self.moment.taps[name]
        return Fraction(second * taps[1], first * taps[0])

    def winding(self, it: Element, winding: int) -> list[Terminal]:
        """The nodes between which each phase of a winding stands."""
        bus = it["buses"][winding - 1][0]
        return [((bus, x), (bus, y)) for x, y in model_elements.terminals(it)[winding - 1]]

    def capacitor_flows(self, name: str, it: Element) -> Iterator[Flow]:
        volts = model_elements.u_of(it["kv"], it["phases"], it["conn"])
        is_closed = name in self.moment.closed
        susceptance = Fraction(it["kvar"] * 10**6, it["phases"] * volts * volts) if is_closed else Fraction(0)
        for k, nodes in enumerate(pairs(it)):
            voltage = self.across(nodes)
            current = voltage.turned(susceptance)
            yield Flow(name, 1, k + 1, nodes, current, Power(ZERO, voltage.square().scaled(-susceptance)))

    def load_flows(self, name: str, it: Element) -> Iterator[Flow]:
        for phase in self.load_phases(name, it):
            yield Flow(name, 1, phase.phase, phase.nodes, phase.current, phase.drawn)

    # ------------------------------------------------------------ loads

    def loads(self) -> Iterator[LoadPhase]:
        """Each phase of each load, in order."""
        for name, it in self.circuit.of("load"):
            yield from self.load_phases(name, it)

    def load_phases(self, name: str, it: Element) -> Iterator[LoadPhase]:
        volts = model_elements.u_of(it["kv"], it["phases"], it["conn"])
        low, high = (model_script.near(it[word] * volts, ONE) for word in ("vminpu", "vmaxpu"))
        asked = asked_power(self.circuit, it, self.moment.settle.hour)
        parts = asked_parts(it, asked)
        for k, nodes in enumerate(pairs(it)):
            voltage = self.across(nodes)
            size = voltage.size()
            magnitude = self.magnitudes.get((name, k + 1), size)
            square = voltage.square()
            drawn, current = NO_POWER, GROUND
            for model, part in parts:
                factor = drawn_factor(model, square, magnitude, volts, low, high)
                drawn = drawn + Power(part.p * factor, part.q * factor)
                current = current + drawn_current(part, voltage, divisor(model, square, magnitude, volts, low, high))
            within = standing(size, low, high)
            yield LoadPhase(name, k + 1, nodes, size, volts, low, high, asked, drawn, current, within)

    # ------------------------------------------------------------ losses and loadings

    def losses(self) -> Iterator[Loss]:
        """What each line and transformer loses. The voltage along it is taken first, so that the interval is narrow."""
        for name, it in self.circuit.of("line", "transformer"):
            if name.startswith("line."):
                ends = zip(line_nodes(it, 1), line_nodes(it, 2))
                drops = [self.voltage(first) - self.voltage(second) for first, second in ends]
                charging = sum_of(flow.charging for flow in self.line_flows(name, it))
            else:
                ratio = self.ratio(name, it)
                windings = zip(self.winding(it, 1), self.winding(it, 2))
                drops = [self.across(first).scaled(ratio) - self.across(second) for first, second in windings]
                charging = NO_POWER
            series = sum_of(drop.power(self.branches[name, k + 1]) for k, drop in enumerate(drops))
            yield Loss(name, series, charging)

    def loadings(self) -> Iterator[Loading]:
        """Each phase and terminal of each line that the script gives `normamps`."""
        for name, it in self.circuit.of("line"):
            rating = it.get("normamps", 0) // 1000
            if rating > 0:
                for flow in self.line_flows(name, it):
                    yield Loading(name, flow.terminal, flow.phase, flow.current.size(), rating)


def pairs(it: Element) -> list[Terminal]:
    """The nodes between which each phase of a load or a bank stands."""
    bus = it["bus1"][0]
    return [((bus, x), (bus, y)) for x, y in model_elements.pairs_of(it["bus1"], it["phases"], it["conn"])]


def asked_power(circuit: Circuit, it: Element, hour: int) -> Power:
    """The power of a load's phase by its kw, kvar or power factor and its shape, rounded as the program rounds it."""
    point = ONE
    if hour and it["daily"]:
        shape = circuit[f"loadshape.{it['daily']}"]
        point = shape["mult"][: shape["npts"]][(hour - 1) % shape["npts"]]
    per_phase = 1000 * ONE * it["phases"]
    p = nearest(Fraction(it["kw"] * point, per_phase))
    if it["bykvar"]:
        q = nearest(Fraction(it["kvar"] * point, per_phase))
    else:
        square = it["pf"] ** 2
        q = isqrt(p * p * (10**18 - square) // square)
        q = -q if p * it["pf"] < 0 else q
    return Power(Interval.exactly(p * 10**9), Interval.exactly(q * 10**9))


def asked_parts(it: Element, asked: Power) -> list[tuple[int, Power]]:
    """The part loads of a load's phase, each a model with its power: of model 8 three, rounded as the program rounds them."""
    p, q = (nearest(Fraction(part.low) / 10**9) for part in (asked.p, asked.q))
    parts = model_elements.part_loads(it, p, q)
    return [(model, Power(Interval.exactly(a * 10**9), Interval.exactly(b * 10**9))) for model, a, b in parts]


def divisor(model: int, square: Interval, magnitude: Interval, volts: int, low: int, high: int) -> Interval:
    """By what the power times the voltage is divided to give a load's current (docs/MODELS.md), in squared microvolts."""

    def clamped(value: Interval, least: int, most: int) -> Interval:
        return Interval(min(max(value.low, least), most), min(max(value.high, least), most))

    if model == 1:
        return clamped(square, low * low, high * high)
    if model == 2:
        return Interval.exactly(volts * volts)
    return clamped(magnitude, low, high).scaled(volts)


def drawn_factor(model: int, square: Interval, magnitude: Interval, volts: int, low: int, high: int) -> Interval:
    """By what a load's phase draws more or less than it is asked for. At constant power it rises with the voltage, so both ends decide."""
    under = divisor(model, square, magnitude, volts, low, high)
    if model == 1:
        return Interval(Fraction(square.low, under.low), Fraction(square.high, under.high))
    return Interval(Fraction(square.low, under.high), Fraction(square.high, under.low))


def drawn_current(asked: Power, voltage: Phasor, under: Interval) -> Phasor:
    """The current of a load's phase: the conjugate of its power times its voltage over the divisor, in microamperes."""
    above = voltage.scaled(asked.p.low) + voltage.turned(-asked.q.low)
    inverse = Interval(Fraction(1, under.high), Fraction(1, under.low))
    return Phasor(above.re * inverse, above.im * inverse)


def standing(size: Interval, low: int, high: int) -> Within:
    """Where all magnitudes of the interval stand by the limits."""
    if size.high < low:
        return Within.BELOW
    if size.low > high:
        return Within.ABOVE
    return Within.WITHIN if low <= size.low and size.high <= high else Within.NOT_DECIDED
