"""How a circuit hangs together: nominal voltages, distances along lines, and the zones that transformers part.

Nominal voltages follow the rule of `CalcVoltageBases`. All that is here comes from the script, and none of it is proved.
"""

from __future__ import annotations

import heapq
import math
from collections import defaultdict
from dataclasses import dataclass
from enum import Enum
from fractions import Fraction

from .decimals import Exact, root_down, root_up
from .intervals import Interval
from .reports import Report
from .script import ONE, Circuit, Element, model_script

KILOMETRE = 10**7
"""In units of 0.1 mm, in which the reader has the units of length."""


class BaseFrom(Enum):
    """Where the voltage base of a bus comes from."""

    RECORD = "the report's base records"
    GIVEN = "the bases that were given"
    SCRIPT = "the nominal voltages of the script's sources and transformers"


@dataclass(frozen=True)
class Base:
    """A bus's base: the square of its voltage to ground in squared microvolts, exactly; between phases it is three times that."""

    square: Fraction

    @classmethod
    def between_phases(cls, kilovolts: Exact) -> Base:
        """The base of so many kV between phases."""
        return cls(Fraction(kilovolts) ** 2 * 10**18 / 3)

    @classmethod
    def to_ground(cls, kilovolts: Exact) -> Base:
        """The base of so many kV to ground."""
        return cls(Fraction(kilovolts) ** 2 * 10**18)

    @property
    def kilovolts(self) -> float:
        """Between phases, in kV, to be read."""
        return math.sqrt(self.square * 3) / 10**9

    def per_unit(self, size: Interval, is_between: bool = False, places: int = 9) -> Interval:
        """A magnitude in microvolts per unit of the base, its ends rounded outward to so many decimals."""
        square = self.square * (3 if is_between else 1)
        scale = 10 ** (2 * places)
        low = root_down(Fraction(size.low * size.low * scale) / square)
        high = root_up(Fraction(size.high * size.high * scale) / square)
        return Interval(Fraction(low, 10**places), Fraction(high, 10**places))

    def near(self, size: float, is_between: bool = False) -> float:
        """A magnitude in microvolts per unit of the base, in floating point."""
        return size / math.sqrt(self.square * (3 if is_between else 1))


@dataclass(frozen=True)
class Bases:
    """The base of each bus that has one, and where they come from."""

    of: dict[str, Base]
    source: BaseFrom


def nominal(circuit: Circuit) -> dict[str, Base]:
    """The nominal voltage of each bus that is reached from a source."""
    found: dict[str, Base] = {}
    size = -1
    while len(found) != size:
        size = len(found)
        for name, it in circuit.of("vsource", "line", "transformer"):
            spread_nominal(found, name, it)
    return found


def spread_nominal(found: dict[str, Base], name: str, it: Element) -> None:
    """Gives the buses of one element the nominal voltages that it says."""
    if name.startswith("vsource."):
        kilovolts = Fraction(it["basekv"], ONE)
        base = Base.between_phases(kilovolts) if it["phases"] == 3 else Base.to_ground(kilovolts)
        found.setdefault(it["bus1"][0], base)
    elif name.startswith("line.") and it["bus1"] and it["bus2"]:
        ends = (it["bus1"][0], it["bus2"][0])
        known = [found[bus] for bus in ends if bus in found]
        found.update((bus, known[0]) for bus in ends if known and bus not in found)
    elif name.startswith("transformer.") and all(it["buses"]):
        first, second = it["buses"][0][0], it["buses"][1][0]
        if first in found or second in found:
            found.setdefault(first, base_of_winding(it, 0))
            found.setdefault(second, base_of_winding(it, 1))


def base_of_winding(it: Element, winding: int) -> Base:
    """The nominal voltage of a bus at this winding."""
    kilovolts = Fraction(it["kvs"][winding], ONE)
    numbers = it["buses"][winding][1]
    is_to_ground = it["phases"] == 1 and (0 in numbers or (it["conns"][winding] == "wye" and len(numbers) < 2))
    return Base.to_ground(kilovolts) if is_to_ground else Base.between_phases(kilovolts)


def bases_of(report: Report, circuit: Circuit | None = None, given: list[Fraction] | None = None) -> Bases | None:
    """The bases of a report: its own records, or the nearest of those given (kV between phases), or the script's nominal voltages."""
    if given and circuit is not None:
        nearest = {}
        for bus, base in nominal(circuit).items():
            kilovolts = min(given, key=lambda it: abs(float(it) - base.kilovolts))
            nearest[bus] = Base.between_phases(kilovolts)
        return Bases(nearest, BaseFrom.GIVEN)
    if report.bases:
        records = {bus: Base.between_phases(Fraction(kv, 10**6)) for bus, kv in report.bases.items()}
        return Bases(records, BaseFrom.RECORD)
    if circuit is not None:
        return Bases(nominal(circuit), BaseFrom.SCRIPT)
    return None


def length_of(line: Element, default_unit: int = KILOMETRE) -> Fraction:
    """A line's length in km. A line without a unit has its line code's, and where that has none, the default."""
    units = model_script.UNITS
    unit = units[line["units"]] or units[line["codeunits"] or "none"] or default_unit
    return Fraction(line["length"], ONE) * Fraction(unit, KILOMETRE)


@dataclass(frozen=True)
class Link:
    """An element between two buses, with its length in km (0 of a transformer)."""

    element: str
    first: str
    second: str
    length: Fraction


def links(circuit: Circuit) -> list[Link]:
    """Lines and transformers, in order."""
    found = []
    for name, it in circuit.of("line", "transformer"):
        if name.startswith("line."):
            found.append(Link(name, it["bus1"][0], it["bus2"][0], length_of(it)))
        else:
            found.append(Link(name, it["buses"][0][0], it["buses"][1][0], Fraction(0)))
    return found


def distances(circuit: Circuit) -> dict[str, Fraction]:
    """The length of the shortest way from a source to each bus, along lines and through transformers, in km."""
    around = defaultdict(list)
    for it in links(circuit):
        around[it.first].append((it.second, it.length))
        around[it.second].append((it.first, it.length))
    found: dict[str, Fraction] = {}
    queue = [(Fraction(0), it["bus1"][0]) for _, it in circuit.of("vsource")]
    heapq.heapify(queue)
    while queue:
        distance, bus = heapq.heappop(queue)
        if bus not in found:
            found[bus] = distance
            for other, length in around[bus]:
                heapq.heappush(queue, (distance + length, other))
    return found


def zones(circuit: Circuit) -> dict[str, str]:
    """For each bus the first bus of its zone: the buses that lines join."""
    zone = {bus: bus for bus, _ in circuit.nodes()}

    def root(bus: str) -> str:
        while zone[bus] != bus:
            bus = zone[bus]
        return bus

    for it in links(circuit):
        if it.element.startswith("line."):
            zone[root(it.second)] = root(it.first)
    return {bus: root(bus) for bus in zone}


def delta_buses(circuit: Circuit) -> set[str]:
    """The buses of zones that are fed by windings in delta alone: there voltages between phases count."""
    zone = zones(circuit)
    fed = {zone[it["bus1"][0]] for _, it in circuit.of("vsource")}
    is_delta: dict[str, bool] = {}
    frontier = list(fed)
    while frontier:
        at = frontier.pop(0)
        for _, it in circuit.of("transformer"):
            ends = [zone[it["buses"][w][0]] for w in (0, 1)]
            if at not in ends or ends[0] == ends[1]:
                continue
            other = 1 - ends.index(at)
            if ends[other] not in fed:
                is_delta[ends[other]] = is_delta.get(ends[other], True) and it["conns"][other] == "delta"
                frontier.append(ends[other])
        fed.update(frontier)
    return {bus for bus in zone if is_delta.get(zone[bus], False)}
