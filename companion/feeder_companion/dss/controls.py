"""RegControls and CapControls."""

from __future__ import annotations

from .findings import Unreadable
from .given import Given
from .lines import frequency
from .profile import Item
from .reader import Element, Elements
from .transformers import Transformer, Transformers
from .values import Value, decimal

REG_NUMBERS = ("vreg", "band", "ptratio", "ctprim", "r", "x", "delay", "tapdelay", "maxtapchange")
REG_SILENT = """debugtrace eventlog revvreg revband revr revx revthreshold revdelay revneutral remoteptratio reset
    rev_z""".split()
REG_ZERO = ("vlimit", "ldc_z")
REG_NO = ("reversible", "inversetime", "cogen")
CAP_NUMBERS = ("ptratio", "ctratio", "onsetting", "offsetting", "delay", "delayoff", "deadtime")
CAP_SILENT = "eventlog usermodel userdata pctminkvar reset".split()


def reg_control(given: Given, hertz: float, elements: Elements) -> list[Item]:
    """A RegControl that measures at its own winding."""
    frequency(given, hertz)
    name = given.word("transformer", "")
    element = elements.get(("transformer", name))
    if element is None:
        raise Unreadable(given.where("transformer"), f"there is no transformer {name or 'given'}")
    pairs = {"transformer": given.clean("transformer", element.name, given.where("transformer"))}
    winding = given.whole("winding", 1)
    pairs["winding"] = str(winding)
    numbers = {n: given.optional(n) for n in REG_NUMBERS}
    pairs |= {n: decimal(v) for n, v in numbers.items() if v is not None}
    phase = given.word("ptphase", "1")
    if not phase.isdigit():
        given.refuse("ptphase", f"ptphase={phase}: the control measures one phase in the profile")
    elif given.has("ptphase"):
        pairs["ptphase"] = phase
    if given.whole("tapwinding", winding) != winding:
        given.refuse("tapwinding", "another winding's tap moves than the one that is measured")
    elif given.has("tapwinding"):
        given.findings.dropped(given.where("tapwinding"), "tapwinding is winding, as it is without")
    remote(given, element, winding)
    for name in REG_NO:
        if given.truth(name, False):
            given.refuse(name, f"{name}=yes")
        elif given.has(name):
            given.findings.dropped(given.where(name), f"{name}=no is as it is without")
    for name in REG_ZERO:
        if given.number(name, 0):
            given.refuse(name, f"{name} isn't 0")
        elif given.has(name):
            given.findings.dropped(given.where(name), f"{name}=0 is as it is without")
    if given.has("tapnum"):
        given.note(given.where("tapnum"), f"tapnum={given.whole('tapnum', 0)} is its transformer's tap")
    given.drop(REG_SILENT, "has no part in a flow that isn't reversed")
    given.rest()
    return [Item("regcontrol", given.name, pairs, given.place, given.comments)]


def remote(given: Given, element: Element, winding: int) -> None:
    """A bus to measure at must be the winding's own."""
    bus = given.bus("bus")
    if bus is None:
        return
    silent = Given(element, type(given.findings)(), given.names)
    unit = Transformer()
    Transformers(60.0, {}).take_all(unit, element, silent, ())
    own = unit.windings[winding - 1].bus if 0 < winding <= len(unit.windings) else None
    if own is not None and own.name.lower() == bus.name.lower():
        given.findings.dropped(given.where("bus"), "bus is the winding's own, as it is without")
    else:
        given.refuse("bus", f"it measures at {bus}, and not at its winding")


def cap_control(given: Given, hertz: float, elements: Elements) -> list[Item]:
    """A CapControl that measures at a Line."""
    frequency(given, hertz)
    kind, _, name = given.word("element", "").partition(".")
    element = elements.get((kind, name))
    bank = elements.get(("capacitor", given.word("capacitor", "")))
    if element is None or bank is None:
        raise Unreadable(given.where("element", "capacitor"), "the element or the capacitor isn't there")
    if kind != "line":
        given.refuse("element", f"it measures at a {kind}: at a Line alone in the profile")
        return []
    control = by_letters(given.word("type", "current"))
    if control not in ("voltage", "current", "kvar"):
        given.refuse("type", f"type={control}")
        return []
    line = given.clean("line", element.name, given.where("element"))
    pairs = {"element": f"line.{line}"}
    if given.has("terminal"):
        pairs["terminal"] = str(given.whole("terminal", 1))
    pairs["capacitor"] = given.clean("capacitor", bank.name, given.where("capacitor"))
    pairs["type"] = control
    numbers = {n: given.optional(n) for n in CAP_NUMBERS}
    pairs |= {n: decimal(v) for n, v in numbers.items() if v is not None}
    for key in ("ctphase", "ptphase"):
        phase = given.word(key, "1")
        if not phase.isdigit():
            given.refuse(key, f"{key}={phase}: the control measures one phase in the profile")
        elif given.has(key):
            pairs[key] = phase
    override(given)
    given.drop(CAP_SILENT, "has no part in the flow")
    given.rest()
    return [Item("capcontrol", given.name, pairs, given.place, given.comments)]


def override(given: Given) -> None:
    """Its override by voltage must be off."""
    if given.value("voltoverride", Value.truth):
        given.refuse("voltoverride", "the control also acts by voltage")
        given.read |= {"vmax", "vmin"}
    elif given.has("voltoverride"):
        given.findings.dropped(given.where("voltoverride"), "voltoverride=no is as it is without")
    given.drop(("vmax", "vmin"), "counts with voltoverride alone")
    if given.has("vbus"):
        given.refuse("vbus", "it measures the voltage of another bus")
    if given.has("controlsignal"):
        given.refuse("controlsignal", "it follows a shape")


def by_letters(word: str) -> str:
    """A type of control by its first letters."""
    for whole in ("voltage", "current", "kvar", "time", "pf", "follow"):
        if whole.startswith(word):
            return whole
    return word
