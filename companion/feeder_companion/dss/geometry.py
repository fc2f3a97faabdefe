"""WireData, CNData, TSData, LineSpacing and LineGeometry: what a line's geometry gives by Carson's equations."""

from __future__ import annotations

import math
from collections.abc import Callable, Mapping
from dataclasses import dataclass, field

from .carson import Cable, ComplexMatrix, Conductor, NoGeometry, cables, concentric_gmr, overhead
from .findings import BadValue, Place, Unreadable
from .given import Given
from .reader import Element, Elements, Setting
from .values import Matrix, Value

FEET: dict[str, float] = {
    "mi": 5280.0,
    "kft": 1000.0,
    "km": 1000 / 0.3048,
    "m": 1 / 0.3048,
    "ft": 1.0,
    "in": 1 / 12,
    "cm": 0.01 / 0.3048,
    "mm": 0.001 / 0.3048,
}
TAPE_RESISTIVITY = 2.3718e-8
"""Resistivity of a copper tape at 50 degrees Celsius, in ohm meters, as OpenDSS has it."""


def unit_of(text: str) -> str:
    """A unit of length by its first letters, or `none`."""
    word = text.strip().lower()
    for unit in ("mi", "kft", "km", "mm", "m", "ft", "in", "cm"):
        if word.startswith(unit):
            return unit
    return "none"


@dataclass(frozen=True)
class Wire:
    """Data of a conductor, in ohms per mile and feet; the parts of a cable are None for a bare wire."""

    resistance: float
    gmr: float
    radius: float
    shield_resistance: float | None = None
    shield_gmr: float = 0.0
    shield_radius: float = 0.0
    permittivity: float = 2.3
    inner: float = 0.0
    outer: float = 0.0


@dataclass
class Spots:
    """Where conductors stand, in feet, and how many of them are phases; `wires` names their data, by class."""

    count: int = 3
    phases: int = 3
    across: dict[int, float] = field(default_factory=dict)
    height: dict[int, float] = field(default_factory=dict)
    wires: dict[int, tuple[str, str]] = field(default_factory=dict)
    reduce: bool = False


@dataclass
class Geometries:
    """The geometry data of a source, by name, read where a line asks for it."""

    elements: Elements
    given_of: Callable[[Element], Given]
    used: set[tuple[str, str]] = field(default_factory=set)

    def find(self, kind: str, name: str, place: Place) -> Given:
        """The settings of a named piece of data."""
        element = self.elements.get((kind, name.lower()))
        if element is None:
            raise Unreadable(place, f"there is no {kind}.{name}")
        self.used.add(element.key)
        return self.given_of(element)

    # ------------------------------------------------------------ wires

    def wire(self, kind: str, name: str, place: Place) -> Wire:
        """The data of a wire or a cable."""
        given = self.find(kind, name, place)
        base = self.bare(given)
        if kind == "cndata":
            return self.concentric(given, base)
        if kind == "tsdata":
            return self.tape(given, base)
        return base

    def length(self, given: Given, name: str, unit: str) -> float | None:
        """A length of a wire's data in feet, with the unit that belongs to it."""
        found = given.optional(name)
        if found is None:
            return None
        units = [given.word(n, "none") for n in (unit, "radunits", "gmrunits") if given.has(n)]
        known = [unit_of(u) for u in units if unit_of(u) != "none"]
        if not known:
            raise Unreadable(given.where(name), f"{name} has no unit: {unit} isn't given")
        return found * FEET[known[0]]

    def bare(self, given: Given) -> Wire:
        """Resistance, GMR and radius, each by the others where it isn't given."""
        resistance = given.optional("rac")
        if resistance is None:
            direct = given.optional("rdc")
            if direct is None:
                raise Unreadable(given.place, "neither rac nor rdc is given")
            resistance = 1.02 * direct
        unit = unit_of(given.word("runits", "none"))
        if unit == "none":
            raise Unreadable(given.where("runits", "rac", "rdc"), "runits isn't given")
        radius = self.length(given, "radius", "radunits")
        diameter = self.length(given, "diam", "radunits")
        if radius is None and diameter is not None:
            radius = diameter / 2
        gmr = self.length(given, "gmrac", "gmrunits")
        if gmr is None and radius is not None:
            gmr = 0.7788 * radius
        if gmr is None:
            raise Unreadable(given.place, "neither gmrac nor radius nor diam is given")
        if radius is None:
            radius = gmr / 0.7788
        return Wire(resistance * FEET["mi"] / FEET[unit], gmr, radius)

    def insulation(self, given: Given) -> tuple[float, float, float]:
        """Relative permittivity, inner and outer radius of the insulation in feet."""
        outer = (self.length(given, "diains", "radunits") or 0.0) / 2
        layer = self.length(given, "inslayer", "radunits") or 0.0
        return given.number("epsr", 2.3), outer - layer, outer

    def concentric(self, given: Given, base: Wire) -> Wire:
        """A cable with concentric strands: Kersting's GMR and resistance of their ring."""
        strands = given.whole("k", 0)
        over = self.length(given, "diacable", "radunits")
        strand = self.length(given, "diastrand", "radunits")
        strand_resistance = given.optional("rstrand")
        if strands < 1 or over is None or strand is None or strand_resistance is None:
            raise Unreadable(given.place, "k, diacable, diastrand and rstrand must be given")
        strand_gmr = self.length(given, "gmrstrand", "gmrunits")
        if strand_gmr is None:
            strand_gmr = 0.7788 * strand / 2
        ring = (over - strand) / 2
        per_mile = strand_resistance * FEET["mi"] / FEET[unit_of(given.word("runits", "none"))]
        if ring <= 0:
            raise Unreadable(given.place, "the strands are as thick as the cable")
        gmr = concentric_gmr(strands, strand_gmr, ring)
        return Wire(base.resistance, base.gmr, base.radius, per_mile / strands, gmr, ring, *self.insulation(given))

    def tape(self, given: Given, base: Wire) -> Wire:
        """A cable with a copper tape: a tubular shield, its resistance by OpenDSS's formula."""
        over = self.length(given, "diashield", "radunits")
        tape = self.length(given, "tapelayer", "radunits")
        lap = given.number("tapelap", 20)
        if not over or not tape or not 0 <= lap < 100:
            raise Unreadable(given.place, "diashield and tapelayer must be given, and tapelap be below 100")
        meters = (over * 0.3048) * (tape * 0.3048) * math.sqrt(50 / (100 - lap))
        ring = (over - tape) / 2
        per_mile = 0.3183 * TAPE_RESISTIVITY / meters * 1609.344
        return Wire(base.resistance, base.gmr, base.radius, per_mile, ring, ring, *self.insulation(given))

    # ------------------------------------------------------------ places

    def spacing(self, name: str, place: Place) -> Spots:
        """A LineSpacing."""
        given = self.find("linespacing", name, place)
        spots = Spots(given.whole("nconds", 3), given.whole("nphases", 3), reduce=True)
        unit = FEET.get(unit_of(given.word("units", "ft")), 1.0)
        for target, prop in ((spots.across, "x"), (spots.height, "h")):
            for index, value in enumerate(given.numbers(prop) or []):
                target[index] = value * unit
        return spots

    def geometry(self, name: str, place: Place) -> Spots:
        """A LineGeometry: its settings are taken in order, each for the conductor of the last `cond`."""
        given = self.find("linegeometry", name, place)
        spots, unit = Spots(), "ft"
        units: dict[int, str] = {}
        at = 0
        for setting in given.element.settings:
            given.read.add(setting.name)
            if setting.name == "nconds":
                spots.count = given.of(setting, Value.whole)
            elif setting.name == "nphases":
                spots.phases = given.of(setting, Value.whole)
            elif setting.name == "cond":
                at = given.of(setting, Value.whole) - 1
                units.setdefault(at, unit)
            elif setting.name == "units":
                unit = units[at] = unit_of(given.of(setting, Value.word))
            elif setting.name == "x":
                spots.across[at] = given.of(setting, Value.number)
            elif setting.name == "h":
                spots.height[at] = given.of(setting, Value.number)
            elif setting.name == "reduce":
                spots.reduce = given.of(setting, Value.truth)
            elif setting.name == "spacing":
                other = self.spacing(given.of(setting, Value.word), setting.place)
                spots.across, spots.height = dict(other.across), dict(other.height)
                spots.count, spots.phases = other.count, other.phases
                units = {i: "ft" for i in range(other.count)}
            elif setting.name in WIRE_LISTS:
                self.set_wires(spots, setting, at)
        for index in range(spots.count):
            factor = FEET.get(units.get(index, unit), 1.0)
            for target in (spots.across, spots.height):
                if index in target:
                    target[index] *= factor
        return spots

    def set_wires(self, spots: Spots, setting: Setting, at: int) -> None:
        """The data of one conductor, or of all of them in order; wires behind cables are the bare ones."""
        kind, one = WIRE_LISTS[setting.name]
        if one:
            spots.wires[at] = (kind, setting.value.text.strip().lower())
            return
        free = 0 if kind != "wiredata" else len([w for w in spots.wires.values() if w[0] != "wiredata"])
        for index, name in enumerate(setting.value.words()):
            spots.wires[free + index] = (kind, name.lower())

    # ------------------------------------------------------------ lines

    def named(self, given: Given, name: str) -> str:
        """The name that a setting holds, as it is written."""
        given.read.add(name)
        return given.last[name].value.text.strip()

    def of_line(self, given: Given, hertz: float) -> tuple[int, ComplexMatrix, Matrix, str]:
        """Conductors, ohms per mile and nanofarads per mile of a line, and where they come from."""
        rho = given.number("rho", 100.0)
        if given.has("geometry"):
            name = self.named(given, "geometry")
            spots, source = self.geometry(name, given.where("geometry")), f"LineGeometry.{name}"
        else:
            name = self.named(given, "spacing")
            spots, source = self.spacing(name, given.where("spacing")), f"LineSpacing.{name}"
        for setting in given.element.settings:
            if setting.name in ("wires", "cncables", "tscables"):
                given.read.add(setting.name)
                self.set_wires(spots, setting, 0)
        place = given.where("geometry", "spacing")
        try:
            impedance, capacitance = self.matrices(spots, place, hertz, rho)
        except (NoGeometry, BadValue, ValueError) as error:
            raise Unreadable(place, f"{source}: {error}") from None
        return len(impedance), impedance, capacitance, source

    def matrices(self, spots: Spots, place: Place, hertz: float, rho: float) -> tuple[ComplexMatrix, Matrix]:
        """The matrices of conductors at their places."""
        count, phases = spots.count, spots.phases
        missing = [i for i in range(count) if i not in spots.wires or i not in spots.across or i not in spots.height]
        if missing or not 0 < phases <= count or rho <= 0:
            raise NoGeometry(f"conductor {missing[0] + 1 if missing else count} has no wire or no place")
        kept = phases if spots.reduce else count
        wires = [self.wire(*spots.wires[i], place) for i in range(count)]
        bare = [Conductor(spots.across[i], spots.height[i], w.resistance, w.gmr, w.radius) for i, w in enumerate(wires)]
        if all(w.shield_resistance is None for w in wires):
            return overhead(bare, kept, hertz, rho)
        shielded = [w.shield_resistance is not None for w in wires]
        if shielded != sorted(shielded, reverse=True) or sum(shielded) != phases:
            raise NoGeometry("cables must be the phases, and bare wires the neutrals")
        group = [
            Cable(c, w.shield_resistance or 0.0, w.shield_gmr, w.shield_radius, w.permittivity, w.inner, w.outer)
            for c, w in zip(bare, wires[:phases])
        ]
        return cables(group, bare[phases:], hertz, rho)


WIRE_LISTS: Mapping[str, tuple[str, bool]] = {
    "wire": ("wiredata", True),
    "cncable": ("cndata", True),
    "tscable": ("tsdata", True),
    "wires": ("wiredata", False),
    "cncables": ("cndata", False),
    "tscables": ("tsdata", False),
}
