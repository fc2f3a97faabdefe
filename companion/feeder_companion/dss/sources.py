"""The circuit's source, and other Vsources."""

from __future__ import annotations

import math

from .findings import Unreadable
from .given import Given
from .lines import frequency
from .profile import Item
from .values import decimal

SILENT = "scantype yearly daily duty spectrum".split()
OHMS = {"r1": 1.65, "x1": 6.6, "r0": 1.9, "x0": 5.7}
"""What OpenDSS takes for what isn't given, in ohms."""
POWER = ("mvasc3", "mvasc1")
CURRENT = ("isc3", "isc1")
PAIRS = ("z1", "z0", "puz1", "puz0")


def source(given: Given, hertz: float, circuit: str, turn_angle: bool) -> list[Item]:
    """A Vsource; `circuit` is the circuit's name where it is its own source, else empty."""
    bus = given.bus("bus1")
    phases, kv = given.whole("phases", 3), given.number("basekv", 115.0)
    frequency(given, hertz)
    found = given.optional("frequency")
    if found is not None and found != hertz:
        given.refuse("frequency", f"frequency={decimal(found)} in a circuit of {decimal(hertz)} Hz")
    if kv <= 0:
        raise Unreadable(given.where("basekv"), "basekv isn't above 0")
    pairs = {"bus1": str(bus)} if bus else {}
    if phases not in (1, 3):
        given.refuse("phases", f"a source of {phases} phases")
    pairs |= {"basekv": decimal(kv), "pu": decimal(given.number("pu", 1.0)), "phases": str(phases)}
    pairs |= angle(given, turn_angle) | impedance(given, kv)
    far = given.bus("bus2")
    if far is not None and (not far.nodes or any(far.nodes)):
        given.refuse("bus2", "a source between two buses")
    elif far is not None:
        given.findings.dropped(given.where("bus2"), "bus2 is ground, as it is without")
    if not given.word("sequence", "pos").startswith("p"):
        given.refuse("sequence", "a source that isn't of positive sequence")
    if given.has("sequence"):
        given.findings.dropped(given.where("sequence"), "sequence is positive, as it is without")
    given.drop(("model",) if given.word("model", "thevenin").startswith("t") else (), "is as it is without")
    given.drop(SILENT, "has no part in a snapshot")
    given.rest()
    if circuit:
        return [Item("circuit", circuit, pairs, given.place, given.comments)]
    return [Item("vsource", given.name, {"bus1": "sourcebus"} | pairs, given.place, given.comments)]


def angle(given: Given, turn: bool) -> dict[str, str]:
    """The angle; where no other source is there, one that isn't a multiple of 30 degrees is turned to 0."""
    found = given.number("angle", 0.0)
    if found % 30 == 0 and abs(found) <= 360:
        return {"angle": decimal(found)} if given.has("angle") else {}
    if not turn:
        given.refuse("angle", f"angle={decimal(found)} isn't a multiple of 30 degrees, and there are more sources")
        return {}
    given.note(given.where("angle"), f"angle={decimal(found)} as 0: every angle of the report is that much less")
    return {"angle": "0"}


def impedance(given: Given, kv: float) -> dict[str, str]:
    """The pairs of the source's impedance, by the last form that is given."""
    form = given.latest(*POWER, *CURRENT, *OHMS, *PAIRS, "puzideal")
    pairs: dict[str, str] = {}
    ratios = {n: decimal(given.number(n, 0)) for n in ("x1r1", "x0r0") if given.has(n)}
    if given.word("model", "thevenin").startswith("i"):
        return ideal(given, kv)
    given.drop(("puzideal",), "counts for model=ideal alone")
    if form is None or form in POWER:
        pairs = {n: decimal(given.number(n, 0)) for n in POWER if given.has(n)} | ratios
    elif form in CURRENT:
        for name, power, default in (("isc3", "mvasc3", 10000.0), ("isc1", "mvasc1", 10500.0)):
            amperes = given.number(name, default)
            pairs[power] = decimal(math.sqrt(3) * kv * amperes / 1000)
            given.note(given.where(form), f"{name}={decimal(amperes)} A is {power}={pairs[power]}")
        pairs |= ratios
    else:
        pairs = in_ohms(given, kv)
    given.drop((*POWER, *CURRENT, *OHMS, *PAIRS, "basemva", "z2", "puz2"), "is overridden")
    return pairs


def in_ohms(given: Given, kv: float) -> dict[str, str]:
    """r1, x1, r0 and x0."""
    ohms = dict(OHMS)
    zero_given = given.has("r0", "x0", "z0", "puz0")
    base = kv * kv / (given.number("basemva", 100.0) or 100.0)
    for setting in given.element.settings:
        name = setting.name
        if name in OHMS:
            ohms[name] = given.number_of(setting)
        elif name in PAIRS:
            numbers = given.numbers(name) or []
            if len(numbers) != 2:
                raise Unreadable(setting.place, f"{name} needs two numbers")
            factor = base if name.startswith("pu") else 1.0
            digit = name[-1]
            ohms["r" + digit], ohms["x" + digit] = (n * factor for n in numbers)
            given.note(setting.place, f"{name} in ohms")
            if digit == "1" and not zero_given:
                ohms["r0"], ohms["x0"] = ohms["r1"], ohms["x1"]
        elif name in ("z2", "puz2"):
            numbers = given.numbers(name) or []
            factor = base if name.startswith("pu") else 1.0
            if [round(n * factor, 9) for n in numbers] != [round(ohms["r1"], 9), round(ohms["x1"], 9)]:
                given.refuse(name, f"{name} isn't the impedance of positive sequence")
        else:
            continue
        given.read.add(name)
    missing = [n for n in OHMS if n not in given.last and not given.has("z" + n[1], "puz" + n[1])]
    if missing and not (given.has("z1", "puz1") and not zero_given):
        given.note(given.place, f"OpenDSS's own {' '.join(missing)}, which the source doesn't give")
    return {n: decimal(v) for n, v in ohms.items()}


def ideal(given: Given, kv: float) -> dict[str, str]:
    """OpenDSS's ideal source: a per-unit impedance of 0.000001 and 0.001 on its base."""
    numbers = given.numbers("puzideal") or [1e-6, 0.001]
    if len(numbers) != 2:
        raise Unreadable(given.where("puzideal"), "puzideal needs two numbers")
    factor = kv * kv / (given.number("basemva", 100.0) or 100.0)
    r, x = (decimal(n * factor) for n in numbers)
    given.note(given.where("model"), "model=ideal in ohms")
    given.drop((*POWER, *CURRENT, *OHMS, *PAIRS, "z2", "puz2"), "is overridden")
    return {"r1": r, "x1": x, "r0": r, "x0": x}
