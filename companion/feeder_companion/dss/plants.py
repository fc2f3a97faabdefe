"""Generators and PVSystems, as loads below zero where that says the same."""

from __future__ import annotations

import math
from dataclasses import dataclass, field

from .findings import Unreadable
from .given import Given
from .loads import SHAPES, Demand, Loads, Shape, emit, negative, neutral
from .profile import Item
from .reader import Element, Elements
from .values import Value, decimal

GENERATOR_SILENT = """dispvalue class vpu maxkvar minkvar pvfactor kva mva xd xdp xdpp h d usermodel userdata
    shaftmodel shaftdata dutystart debugtrace xrdp usefuel fuelkwh %fuel %reserve refuel dynamiceq dynout spectrum
    forceon basefreq""".split()
PLANT_SILENT = """class usermodel userdata debugtrace dutystart dynamiceq dynout spectrum %r %x varfollowinverter
    wattpriority pfpriority %pminnovars %pminkvarmax kvarmax kvarmaxabs kvdc kp pitol safevoltage safemode amplimit
    amplimitgain controlmode limitcurrent %cutin tdaily tyearly tduty basefreq""".split()
VMINPU, VMAXPU = 0.9, 1.1
"""OpenDSS's limits of a generator and of a plant, per unit."""


@dataclass
class Curves:
    """The XYCurves of a source."""

    elements: Elements
    used: set[tuple[str, str]] = field(default_factory=set)

    def at(self, given: Given, name: str, x: float) -> float:
        """The value of a curve that a setting names, between its points by straight lines, held at its ends."""
        curve = given.word(name, "")
        element = self.elements.get(("xycurve", curve))
        if element is None:
            raise Unreadable(given.where(name), f"there is no xycurve {curve}")
        self.used.add(element.key)
        xs, ys = self.points(element)
        if x <= xs[0]:
            return ys[0]
        for x0, y0, x1, y1 in zip(xs, ys, xs[1:], ys[1:]):
            if x <= x1:
                return y0 + (y1 - y0) * (x - x0) / (x1 - x0) if x1 != x0 else y1
        return ys[-1]

    def points(self, element: Element) -> tuple[list[float], list[float]]:
        """The abscissas and ordinates of a curve."""
        xs: list[float] = []
        ys: list[float] = []
        for setting in element.settings:
            if setting.name == "xarray":
                xs = setting.value.numbers()
            elif setting.name == "yarray":
                ys = setting.value.numbers()
            elif setting.name == "points":
                both = setting.value.numbers()
                xs, ys = both[::2], both[1::2]
        if not xs or len(xs) != len(ys) or sorted(xs) != xs:
            raise Unreadable(element.place, "a curve needs as many rising abscissas as ordinates")
        return xs, ys


def generator(given: Given, loads: Loads, factor: float) -> list[Item]:
    """A Generator of constant power or constant impedance; `factor` is the option genmult."""
    model = given.whole("model", 1)
    if model not in (1, 2, 4):
        given.refuse("model", f"model={model}: a generator that isn't of constant power or impedance")
        return []
    if not given.word("dispmode", "default").startswith("d"):
        given.refuse("dispmode", "a generator that is dispatched")
        return []
    demand = plant_demand(given, loads, "kw")
    kw = given.number("kw", 0)
    kvar = given.optional("kvar") if given.latest("pf", "kvar") == "kvar" else None
    power_factor = given.number("pf", 0)
    given.drop(("kvar", "pf"), "is overridden")
    if kvar is None:
        if not 0 < abs(power_factor) <= 1:
            raise Unreadable(given.where("pf"), "neither kvar nor a power factor is given")
        kvar = math.copysign(abs(kw) * math.sqrt(1 / power_factor**2 - 1), kw * power_factor)
    fixed = given.word("status", "variable").startswith("f")
    if not fixed and factor != 1:
        given.note(given.place, f"kw and kvar times genmult={decimal(factor)}")
        kw, kvar = kw * factor, kvar * factor
    demand.parts = {1 if model == 4 else model: (kw, kvar)}
    return finish(given, demand, GENERATOR_SILENT, "a generator")


def pv_system(given: Given, loads: Loads, curves: Curves) -> list[Item]:
    """A PVSystem at its irradiance, its curves taken at the snapshot."""
    if given.whole("model", 1) not in (1, 2):
        given.refuse("model", "a plant that isn't of constant power or impedance")
        return []
    demand = plant_demand(given, loads, "pmpp")
    rated, over_a_day = given.number("pmpp", 500.0), bool(demand.daily and loads.shape)
    kva = given.number("kva", 500.0)
    power = panel_power(given, curves, rated, kva, over_a_day)
    power = min(power, kva, rated * given.number("%pmpp", 100.0) / 100)
    kvar = given.optional("kvar") if given.latest("pf", "kvar") == "kvar" else None
    power_factor = given.number("pf", 1.0)
    if kvar is None:
        if not 0 < abs(power_factor) <= 1:
            raise Unreadable(given.where("pf"), f"pf={decimal(power_factor)} is no power factor")
        kvar = math.copysign(power * math.sqrt(1 / power_factor**2 - 1), power_factor)
    if math.hypot(power, kvar) > kva * (1 + 1e-12):
        given.refuse("kva", "kW and kvar together are above kva: which gives way is a matter of the inverter")
    demand.parts = {given.whole("model", 1): (power, kvar)}
    return finish(given, demand, PLANT_SILENT, "a plant")


def panel_power(given: Given, curves: Curves, rated: float, kva: float, over_a_day: bool) -> float:
    """kW behind the inverter at the snapshot: irradiance, temperature, cut-out and efficiency."""
    if given.has("effcurve", "p-tcurve") and over_a_day:
        given.refuse("effcurve", "a plant with curves in a daily flow")
        given.read |= {"effcurve", "p-tcurve", "temperature"}
        return rated
    power = rated * given.number("irradiance", 1.0)
    if given.has("p-tcurve"):
        power *= curves.at(given, "p-tcurve", given.number("temperature", 25.0))
        given.note(given.where("p-tcurve"), "the curve's value at the temperature is worked into kw")
    given.drop(("temperature",), "counts with p-tcurve alone")
    cut = given.number("%cutout", 20.0) / 100 * kva
    if over_a_day and cut > 0:
        given.refuse("%cutout", f"a plant that is off below {decimal(cut)} kW, in a daily flow")
    elif power < cut:
        given.drop(("effcurve",), "doesn't count where the plant is off")
        given.note(given.place, f"off: below {decimal(cut)} kW, its cut-out")
        return 0.0
    if given.has("effcurve"):
        power *= curves.at(given, "effcurve", power / kva if kva else 0.0)
        given.note(given.where("effcurve"), "the curve's value is worked into kw")
    return power


def plant_demand(given: Given, loads: Loads, needed: str) -> Demand:
    """What generators and plants have in common; its parts are still to come."""
    bus = given.bus("bus1")
    if bus is None or not given.has(needed):
        raise Unreadable(given.place, f"{'bus1' if bus is None else needed} isn't given")
    fixed = given.word("status", "variable").startswith("f")
    name = given.names.fresh("load", given.element.name)
    if name != given.element.name:
        given.note(given.place, f"{given.element.name} is named {name}")
    demand = Demand(
        name=name,
        bus=bus,
        phases=given.whole("phases", 3),
        kv=given.number("kv", 12.47),
        conn=given.connection(),
        parts={},
        vminpu=min(max(given.number("vminpu", VMINPU), 0.4), 1.0),
        vmaxpu=min(max(given.number("vmaxpu", VMAXPU), 1.0), 2.0),
        daily="" if fixed else loads.daily(given),
    )
    if fixed:
        given.drop(SHAPES, "doesn't count for status=fixed")
    neutral(given, demand)
    shape = loads.shapes.get(demand.daily.lower(), Shape())
    if shape.actual or shape.reactive:
        given.refuse("daily", "a plant by a shape in kW, or with one of its own for kvar")
    return demand


def finish(given: Given, demand: Demand, silent: list[str], what: str) -> list[Item]:
    """The items of a plant."""
    if given.value("balanced", Value.truth):
        given.refuse("balanced", "balanced=yes: the same current in each phase")
    given.note(given.place, f"{what} is a Load below zero")
    given.drop(("status",), "is worked into the numbers")
    given.drop(silent, "has no part in this flow")
    items = emit(negative(demand), given)
    given.rest()
    return items
