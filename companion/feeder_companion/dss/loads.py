"""Loads, and the generators and plants that stand as loads below zero."""

from __future__ import annotations

import math
from dataclasses import dataclass, field, replace

from .findings import Unreadable
from .given import Given
from .profile import Item
from .values import NUMBER, Bus, Value, decimal

SILENT = (
    """growth %mean %stddev vminnorm vminemerg relweight spectrum puxharm xrharm %seriesrl cvrcurve basefreq""".split()
)
SHAPES = ("daily", "yearly", "duty")
LEAST_LIMIT, GREATEST_LIMIT = 0.4, 2.0
SAME_SHAPE = "the shape counts at daily flows alone"


@dataclass(frozen=True)
class Limits:
    """What the user asks for where a script leaves OpenDSS's limits of 0.95 and 1.05 per unit."""

    vminpu: float | None = None
    vmaxpu: float | None = None


@dataclass
class Demand:
    """A load as the profile has it, but that it may have two phases and parts of several models (kW, kvar).

    `daily` is its shape; where `reactive` isn't empty, that is the shape of its kvar alone.
    """

    name: str
    bus: Bus
    phases: int
    kv: float
    conn: str
    parts: dict[int, tuple[float, float]]
    power_factor: float | None = None
    vminpu: float | None = None
    vmaxpu: float | None = None
    daily: str = ""
    reactive: str = ""
    kept: dict[str, str] = field(default_factory=dict)


@dataclass(frozen=True)
class Shape:
    """What a shape is besides its numbers: in kW (times `kw`) or not, and the shape of kvar (times `kvar`), if any."""

    actual: bool = False
    kw: float = 1.0
    reactive: str = ""
    kvar: float = 1.0


@dataclass
class Loads:
    """Translates Loads. `factor` is the option loadmult; `shape` which of a load's shapes the Solve uses, if any."""

    limits: Limits
    factor: float = 1.0
    shape: str = ""
    shapes: dict[str, Shape] = field(default_factory=dict)

    def load(self, given: Given) -> list[Item]:
        """The items of a Load."""
        demand = self.demand(given)
        items = emit(demand, given)
        given.drop(SILENT, "has no part in the flow")
        given.rest()
        return items

    def demand(self, given: Given) -> Demand:
        """A Load's data."""
        bus = given.bus("bus1")
        if bus is None:
            raise Unreadable(given.place, "bus1 isn't given")
        kw, kvar, factor = self.powers(given)
        status = given.word("status", "variable")
        fixed = status.startswith("f")
        if not fixed and not status.startswith("e") and self.factor != 1:
            kw, kvar = kw * self.factor, kvar * self.factor
            given.note(given.place, f"kw and kvar times loadmult={decimal(self.factor)}")
        if given.has("status"):
            self.note_status(given, status)
        daily = "" if fixed else self.daily(given)
        if fixed:
            given.drop(SHAPES, "doesn't count for status=fixed")
        shape = self.shapes.get(daily.lower(), Shape())
        if shape.actual:
            kw, kvar, factor = self.actual(shape, kw, kvar, given)
        demand = Demand(
            name=given.name,
            bus=bus,
            phases=given.whole("phases", 3),
            kv=given.number("kv", 12.47),
            conn=given.connection(),
            parts=parts_of(given, kw, kvar),
            power_factor=factor,
            daily=daily,
            reactive=shape.reactive,
        )
        self.set_limits(demand, given)
        for name in ("class", "numcust"):
            text = given.value(name, lambda value: value.text.strip())
            if text is not None and NUMBER.match(text):
                demand.kept[name] = text
            elif text is not None:
                given.findings.dropped(given.where(name), f"{name} has no part in the flow")
        neutral(given, demand)
        if given.has("vlowpu"):
            given.read.add("vlowpu")
            given.findings.not_carried(given.where("vlowpu"), "vlowpu: changes the flow only below that voltage")
        return demand

    def actual(self, shape: Shape, kw: float, kvar: float, given: Given) -> tuple[float, float, float | None]:
        """The powers that a shape in kW is times; kvar follow the load's own ratio where the shape has none."""
        given.note(given.where(*SHAPES), f"the shape is in kW: kw={decimal(shape.kw)}")
        if shape.reactive:
            return shape.kw, shape.kvar, None
        if kw == 0:
            raise Unreadable(given.place, "a shape in kW, and a load of no kW: its ratio of kvar isn't known")
        return shape.kw, kvar / abs(kw) * shape.kw, None

    def note_status(self, given: Given, status: str) -> None:
        """What `status` comes to."""
        if status.startswith("v"):
            given.findings.dropped(given.where("status"), f"status={status} is as it is without")
        elif self.factor == 1 and not (status.startswith("f") and given.has(*SHAPES)):
            given.findings.dropped(given.where("status"), f"status={status} counts for loadmult and shapes alone")
        else:
            given.findings.translated(given.where("status"), f"status={status} is worked into the numbers")

    def powers(self, given: Given) -> tuple[float, float, float | None]:
        """kW and kvar, and the power factor where that is what the source gives."""
        factor = given.number("pf", 0.88)
        if factor == 0 or abs(factor) > 1:
            raise Unreadable(given.where("pf"), f"pf={decimal(factor)} is no power factor")
        base = given.latest("kw", "kva", "xfkva", "kwh")
        if base in ("kva", "xfkva", "kwh"):
            kw = self.rated(given, base, abs(factor))
        else:
            kw = given.number("kw", 10.0)
        by_kvar = given.latest("pf", "kvar") == "kvar" and base not in ("kva", "xfkva", "kwh")
        kvar = given.optional("kvar")
        for unread in ("kva", "xfkva", "kwh", "kw", "kwhdays", "cfactor", "allocationfactor", "kvar", "pf"):
            if given.has(unread) and unread not in given.read:
                given.drop([unread], "is overridden")
        if by_kvar and kvar is not None:
            return kw, kvar, None
        return kw, math.copysign(math.sqrt(max(0.0, 1 / factor**2 - 1)) * abs(kw), kw * factor), factor

    def rated(self, given: Given, base: str, factor: float) -> float:
        """kW by kVA, by the transformer's kVA, or by energy."""
        if base == "kva":
            kw = given.number("kva", 0) * factor
        elif base == "xfkva":
            kw = given.number("xfkva", 0) * given.number("allocationfactor", 0.5) * factor
        else:
            days = given.number("kwhdays", 30)
            if days <= 0:
                raise Unreadable(given.where("kwhdays"), "kwhdays isn't above 0")
            kw = given.number("kwh", 0) / (days * 24) * given.number("cfactor", 4)
        given.note(given.where(base), f"{base} and pf as kw={decimal(kw)}")
        return kw

    def daily(self, given: Given) -> str:
        """The shape that a daily Solve uses; where there is none, that of `daily`, which then has no effect."""
        wanted = [self.shape] if self.shape else ["daily", "yearly"]
        if self.shape == "yearly":
            wanted.append("daily")
        for name in wanted:
            found = given.value(name, Value.word)
            if found is not None:
                if name != "daily":
                    given.note(given.where(name), f"{name} as daily")
                given.drop(SHAPES, "isn't the shape of this flow")
                return given.clean("loadshape", found, given.where(name))
        given.drop(SHAPES, "isn't the shape of this flow")
        return ""

    def set_limits(self, demand: Demand, given: Given) -> None:
        """vminpu and vmaxpu: those of the source, else those that are asked for, else none."""
        low, high = given.optional("vminpu"), given.optional("vmaxpu")
        if low is not None and low < LEAST_LIMIT:
            given.note(
                given.where("vminpu"), f"vminpu is {LEAST_LIMIT}, the profile's least; it differs only below that"
            )
            low = LEAST_LIMIT
        if high is not None and high > GREATEST_LIMIT:
            given.note(
                given.where("vmaxpu"), f"vmaxpu is {GREATEST_LIMIT}, the profile's greatest; it differs only above"
            )
            high = GREATEST_LIMIT
        if set(demand.parts) != {2}:
            if low is None:
                low = self.limits.vminpu
                if low is not None:
                    given.note(given.place, "vminpu as asked for")
            if high is None and self.limits.vmaxpu is not None:
                high = self.limits.vmaxpu
                given.note(given.place, "vmaxpu as asked for")
        demand.vminpu, demand.vmaxpu = low, high


def parts_of(given: Given, kw: float, kvar: float) -> dict[int, tuple[float, float]]:
    """kW and kvar by the profile's models: 1 constant power, 2 constant impedance, 5 constant current."""
    model = given.whole("model", 1)
    shares: dict[int, tuple[float, float]]
    if model in (1, 2, 5):
        shares = {model: (1, 1)}
    elif model in (3, 7):
        shares = {1: (1, 0), 2: (0, 1)}
    elif model == 6:
        shares = {1: (1, 1)}
    elif model == 4:
        shares = by_exponents(given)
    elif model == 8:
        shares = by_zip(given)
    else:
        raise Unreadable(given.where("model"), f"there is no load model {model}")
    if model != 4:
        given.drop(("cvrwatts", "cvrvars"), "counts for model 4 alone")
    if model != 8:
        given.drop(("zipv",), "counts for model 8 alone")
    if model not in (1, 2, 5):
        models = " and ".join(str(m) for m in sorted(shares))
        given.note(given.where("model"), f"model {model} as loads of model {models}")
    return {m: (kw * p, kvar * q) for m, (p, q) in shares.items()}


def by_exponents(given: Given) -> dict[int, tuple[float, float]]:
    """Model 4: powers that go with a power of the voltage; exactly where that is 0, 1 or 2.

    Other exponents are refused. Left out by `--without`, each is taken as the shares of constant impedance, current
    and power that have its value, slope and curvature at nominal voltage.
    """
    watts, vars_ = given.number("cvrwatts", 1.0), given.number("cvrvars", 2.0)
    if {watts, vars_} - {0.0, 1.0, 2.0}:
        text = f"model 4 with exponents {decimal(watts)} and {decimal(vars_)}: other than 0, 1 and 2 only nearly, "
        given.refuse("model", text + "by shares of impedance, current and power that agree at nominal voltage")
    of_watts, of_vars = quadratic(watts), quadratic(vars_)
    shares = {m: (of_watts[m], of_vars[m]) for m in (1, 2, 5)}
    return {m: s for m, s in shares.items() if s != (0, 0)}


def quadratic(exponent: float) -> dict[int, float]:
    """The shares by model (2 impedance, 5 current, 1 power) that agree with a power of the voltage at 1 per unit."""
    impedance, current = exponent * (exponent - 1) / 2, exponent * (2 - exponent)
    return {2: impedance, 5: current, 1: 1 - impedance - current}


def by_zip(given: Given) -> dict[int, tuple[float, float]]:
    """Model 8: shares of impedance, current and power, of kW and of kvar; and a voltage below which it is off."""
    numbers = given.numbers("zipv") or []
    if len(numbers) not in (6, 7):
        raise Unreadable(given.where("zipv", "model"), "zipv needs seven numbers")
    if len(numbers) == 7 and numbers[6] > 0:
        text = f"the load is off below {decimal(numbers[6])} per unit in OpenDSS, here it isn't"
        given.findings.not_carried(given.where("zipv"), text)
    shares = {2: (numbers[0], numbers[3]), 5: (numbers[1], numbers[4]), 1: (numbers[2], numbers[5])}
    return {m: s for m, s in shares.items() if s != (0, 0)} or {1: (0, 0)}


def neutral(given: Given, demand: Demand) -> None:
    """A neutral must be at ground."""
    spare = demand.bus.nodes[demand.phases :] if demand.conn == "wye" and demand.phases > 1 else ()
    if any(spare[:1]):
        given.refuse_element(f"{given.element.kind}.neutral", f"{demand.bus}: a neutral that isn't at ground")
    given.drop(("rneut", "xneut"), "has no part where the neutral is at ground")


def emit(demand: Demand, given: Given) -> list[Item]:
    """The items of a demand: one for each model, each shape, and each phase where there are two."""
    if demand.phases not in (1, 2, 3):
        given.refuse("phases", f"phases={demand.phases}")
        return []
    places = split(demand, given)
    pieces = pieces_of(demand)
    items: list[Item] = []
    for piece in pieces:
        for suffix, bus, phases, kv in places:
            name, comments = demand.name, given.comments
            if len(pieces) * len(places) > 1:
                name = given.names.fresh("load", "_".join(t for t in (name, suffix, piece.ending) if t))
                comments = [f"of {given.element.kind.capitalize()}.{given.element.name}", *given.comments]
            pairs = {"bus1": str(bus), "phases": str(phases)} | law(demand, piece, given)
            pairs |= {"kv": decimal(kv)} | powers_of(demand, piece, given, len(places), len(pieces) == 1)
            for key, limit in (("vminpu", demand.vminpu), ("vmaxpu", demand.vmaxpu)):
                if limit is not None and piece.model != 2:
                    pairs[key] = decimal(limit)
            if piece.daily:
                pairs["daily"] = piece.daily
            items.append(Item("load", name, pairs | demand.kept, given.place, list(comments)))
    return items


@dataclass(frozen=True)
class Piece:
    """A share of a demand: of one model, with one shape; `ending` tells it from the others."""

    model: int
    kw: float
    kvar: float
    daily: str
    ending: str


def pieces_of(demand: Demand) -> list[Piece]:
    """The shares of a demand."""
    pieces: list[Piece] = []
    for model, (kw, kvar) in demand.parts.items():
        ending = {1: "p", 2: "z", 5: "i"}[model] if len(demand.parts) > 1 else ""
        if not demand.reactive:
            pieces.append(Piece(model, kw, kvar, demand.daily, ending))
            continue
        pieces.append(Piece(model, kw, 0.0, demand.daily, ending + "kw"))
        pieces.append(Piece(model, 0.0, kvar, demand.reactive, ending + "kvar"))
    return [p for p in pieces if p.kw or p.kvar] or pieces[:1]


def law(demand: Demand, piece: Piece, given: Given) -> dict[str, str]:
    """Connection and model, where they are given or aren't those of the profile's default."""
    pairs: dict[str, str] = {}
    if given.has("conn") or demand.conn != "wye":
        pairs["conn"] = demand.conn
    if given.has("model") or piece.model != 1:
        pairs["model"] = str(piece.model)
    return pairs


def powers_of(demand: Demand, piece: Piece, given: Given, places: int, whole: bool) -> dict[str, str]:
    """kW with kvar, or with the power factor where the source gives that and the demand isn't split by models."""
    pairs = {"kw": decimal(piece.kw / places)}
    if demand.power_factor is None or not whole:
        pairs["kvar"] = decimal(piece.kvar / places)
    elif given.has("pf"):
        pairs["pf"] = decimal(demand.power_factor)
    return pairs


def split(demand: Demand, given: Given) -> list[tuple[str, Bus, int, float]]:
    """Name ending, bus, phases and kV of the one-phase loads that two phases come to; else the demand itself."""
    bus, nodes = demand.bus, demand.bus.nodes
    if demand.phases != 2:
        return [("", one_phase(demand, given), demand.phases, demand.kv)]
    if demand.conn == "wye":
        given.note(given.where("phases"), "two phases as two loads, kv over root three and half the power each")
        pair = (nodes or (1, 2))[:2]
        if len(pair) < 2:
            raise Unreadable(given.where("bus1"), f"{bus} has one node for two phases")
        return [(str(i + 1), bus.at(n), 1, demand.kv / math.sqrt(3)) for i, n in enumerate(pair)]
    given.note(given.where("phases"), "two phases in delta as two loads between nodes, half the power each")
    three = nodes if len(nodes) >= 3 else (*nodes, 3) if len(nodes) == 2 else (1, 2, 3)
    return [(str(i + 1), bus.at(three[i], three[i + 1]), 1, demand.kv) for i in (0, 1)]


def one_phase(demand: Demand, given: Given) -> Bus:
    """The bus, with no more nodes than the profile takes."""
    bus, nodes = demand.bus, demand.bus.nodes
    if demand.phases == 3:
        if nodes and len(nodes) < 3:
            filled = nodes + (1, 2, 3)[len(nodes) :]
            given.note(given.where("bus1"), f"{bus} is {bus.at(*filled)}, as OpenDSS fills it up")
            return bus.at(*filled)
        if len(nodes) > 3:
            return bus.at(*nodes[:3])
        return bus
    if demand.conn == "delta" and len(nodes) == 1:
        given.note(given.where("bus1"), f"{bus} is {bus.at(nodes[0], 2)}, as OpenDSS fills it up")
        return bus.at(nodes[0], 2)
    if len(nodes) > 2:
        given.note(given.where("bus1"), f"{bus}: one phase has two nodes")
        return bus.at(*nodes[:2])
    return bus


def negative(demand: Demand) -> Demand:
    """What generates, as a load that draws less than nothing."""
    parts = {m: (-kw, -kvar) for m, (kw, kvar) in demand.parts.items()}
    return replace(demand, parts=parts, power_factor=None)
