"""Capacitors and Reactors."""

from __future__ import annotations

import math
from dataclasses import dataclass

from .findings import Unreadable
from .given import Given
from .lines import frequency
from .profile import Item, array, matrix
from .values import Bus, decimal

SILENT = "normamps emergamps faultrate pctperm repair".split()


@dataclass
class Shunts:
    """Translates Capacitors and Reactors. `controlled` are the banks that a CapControl switches, in lower case."""

    hertz: float
    controlled: frozenset[str] = frozenset()

    # ------------------------------------------------------------ capacitors

    def capacitor(self, given: Given) -> list[Item]:
        """A bank in shunt; steps that stand closed are one bank, two phases are two."""
        bus = given.bus("bus1")
        if bus is None:
            raise Unreadable(given.place, "bus1 isn't given")
        self.second_bus(given)
        frequency(given, self.hertz)
        for name in ("cmatrix", "cuf", "r", "xl"):
            if given.has(name) and any(given.numbers(name) or [0.0]):
                given.refuse(name, f"{name} isn't kvar: a capacitor of kvar alone is in the profile")
        given.drop(("cmatrix", "cuf", "r", "xl", "harm"), "is 0 or for harmonics")
        given.drop(SILENT, "has no part in the flow")
        kvar, closed = self.steps(given)
        phases, conn, kv = given.whole("phases", 3), given.connection(), given.number("kv", 12.47)
        given.rest()
        name = given.name
        if phases not in (1, 2, 3):
            given.refuse("phases", f"phases={phases}")
            return []
        if phases == 2:
            return self.two_phases(given, bus, kvar, kv, conn, closed)
        if any(bus.nodes[phases:][:1]) and conn == "wye" and phases == 3:
            given.refuse_element("capacitor.neutral", f"{bus}: a neutral that isn't at ground")
        return [bank(given, name, bus.at(*bus.nodes[: 3 if phases == 3 else 2]), phases, conn, kv, kvar, closed)]

    def second_bus(self, given: Given) -> None:
        """A second bus must be ground."""
        found = given.bus("bus2")
        if found is None:
            return
        if found.nodes and not any(found.nodes):
            given.findings.dropped(given.where("bus2"), "bus2 is ground, as it is without")
        else:
            given.refuse("bus2", "a capacitor in series, or whose second end isn't ground")

    def steps(self, given: Given) -> tuple[float, bool]:
        """The kvar of the closed steps, and whether any is closed."""
        ratings = given.numbers("kvar") or [1200.0]
        count = given.whole("numsteps", max(1, len(ratings)))
        if count < 1 or count > 1000:
            raise Unreadable(given.where("numsteps"), f"numsteps={count}")
        states = [s != 0 for s in given.numbers("states") or []]
        states = (states + [True] * count)[:count]
        if len(ratings) == 1 and count > 1:
            ratings = [ratings[0] / count] * count
        ratings = (ratings + [ratings[-1]] * count)[:count]
        if count == 1:
            return ratings[0], states[0]
        if given.element.name.lower() in self.controlled:
            given.refuse("numsteps", f"a bank of {count} steps under a CapControl")
        closed = sum(r for r, s in zip(ratings, states) if s)
        given.note(given.where("numsteps", "kvar"), f"{count} steps, of which {sum(states)} are closed, as one bank")
        return (closed, True) if any(states) else (sum(ratings), False)

    def two_phases(self, given: Given, bus: Bus, kvar: float, kv: float, conn: str, closed: bool) -> list[Item]:
        """Two one-phase banks."""
        if conn != "wye" or given.element.name.lower() in self.controlled:
            given.refuse("phases", "two phases in delta, or under a CapControl")
            return []
        given.note(given.where("phases"), "two phases as two banks, kv over root three and half the kvar each")
        items = []
        for index, node in enumerate((bus.nodes or (1, 2))[:2], 1):
            name = given.names.fresh("capacitor", f"{given.name}_{index}")
            items.append(bank(given, name, bus.at(node), 1, "wye", kv / math.sqrt(3), kvar / 2, closed))
        return items

    # ------------------------------------------------------------ reactors

    def reactor(self, given: Given) -> list[Item]:
        """A reactor in shunt is a Load of model 2, one in series a Line."""
        bus = given.bus("bus1")
        if bus is None:
            raise Unreadable(given.place, "bus1 isn't given")
        frequency(given, self.hertz)
        given.drop(SILENT, "has no part in the flow")
        phases, conn, kv = given.whole("phases", 3), given.connection(), given.number("kv", 12.47)
        impedance = self.impedance(given, phases, kv, conn)
        far = given.bus("bus2")
        if given.truth("parallel", False):
            given.refuse("parallel", "R and X in parallel")
        given.rest()
        if impedance is None or phases not in (1, 2, 3):
            given.refuse("phases", f"phases={phases}, or an impedance that isn't given by kvar, x, r, z or z1")
            return []
        if far is None or (far.nodes and not any(far.nodes)):
            return self.shunt_reactor(given, bus, phases, conn, kv, impedance)
        note = "a reactor in series is a Line of one impedance for each phase"
        given.note(given.place, note)
        name = given.names.fresh("line", f"reactor_{given.name}")
        diagonal = [[float(i == j) for j in range(phases)] for i in range(phases)]
        pairs = {
            "bus1": str(bus),
            "bus2": str(far),
            "phases": str(phases),
            "rmatrix": matrix([[v * impedance.real for v in row] for row in diagonal]),
            "xmatrix": matrix([[v * impedance.imag for v in row] for row in diagonal]),
        }
        return [Item("line", name, pairs, given.place, given.comments)]

    def impedance(self, given: Given, phases: int, kv: float, conn: str) -> complex | None:
        """Ohms of a phase, by the last form that is given."""
        form = given.latest("kvar", "x", "r", "z", "z1", "lmh")
        resistance = given.number("r", 0.0)
        if form == "kvar":
            kvar = given.number("kvar", 100.0)
            if kvar <= 0:
                raise Unreadable(given.where("kvar"), "kvar isn't above 0")
            across = kv / math.sqrt(3) if phases > 1 and conn == "wye" else kv
            return complex(resistance, across * across * 1000 / (kvar / phases))
        if form in ("x", "r"):
            given.drop(("kvar",), "is overridden")
            return complex(resistance, given.number("x", 0.0))
        if form == "lmh":
            return complex(resistance, 2 * math.pi * self.hertz * given.number("lmh", 0.0) / 1000)
        if form in ("z", "z1"):
            numbers = given.numbers(form) or []
            return complex(*numbers) if len(numbers) == 2 else None
        return None

    def shunt_reactor(self, given: Given, bus: Bus, phases: int, conn: str, kv: float, ohms: complex) -> list[Item]:
        """A load of constant impedance."""
        if ohms == 0 or phases == 2:
            given.refuse_element("reactor", "a shunt reactor of no impedance, or of two phases")
            return []
        across = kv / math.sqrt(3) if phases > 1 and conn == "wye" else kv
        power = phases * across * across * 1000 / ohms.conjugate()
        given.note(given.place, "a shunt reactor is a Load of model 2")
        pairs = {
            "bus1": str(bus.at(*bus.nodes[: 3 if phases == 3 else 2])),
            "phases": str(phases),
            "conn": conn,
            "model": "2",
            "kv": decimal(kv),
            "kw": decimal(power.real),
            "kvar": decimal(power.imag),
        }
        name = given.names.fresh("load", f"reactor_{given.name}")
        return [Item("load", name, pairs, given.place, given.comments)]


def bank(given: Given, name: str, bus: Bus, phases: int, conn: str, kv: float, kvar: float, closed: bool) -> Item:
    """A Capacitor."""
    pairs = {"bus1": str(bus), "phases": str(phases)}
    if given.has("conn") or conn != "wye":
        pairs["conn"] = conn
    pairs |= {"kv": decimal(kv), "kvar": decimal(kvar)}
    if not closed or given.has("states"):
        pairs["states"] = array([1.0 if closed else 0.0])
    return Item("capacitor", name, pairs, given.place, list(given.comments))
