"""Linecodes and Lines."""

from __future__ import annotations

import math
from dataclasses import dataclass, field, replace

from .carson import ComplexMatrix, NoGeometry, kron
from .findings import Unreadable
from .geometry import FEET, Geometries, unit_of
from .given import Given
from .profile import Item, matrix
from .reader import Setting
from .values import Bus, Matrix, Value, decimal

SEQUENCE = ("r1", "x1", "r0", "x0", "c1", "c0")
MATRICES = ("rmatrix", "xmatrix", "cmatrix")
DEFAULTS = {"r1": 0.058, "x1": 0.1206, "r0": 0.1784, "x0": 0.4047, "c1": 3.4, "c0": 1.6}
"""What OpenDSS takes for what isn't given: ohms and nanofarads per unit of length."""
SWITCH = {"r1": 1.0, "x1": 1.0, "r0": 1.0, "x0": 1.0, "c1": 1.1, "c0": 1.0}
KEPT = ("normamps", "emergamps", "faultrate", "pctperm", "repair")
SILENT = ("seasons", "ratings", "linetype", "epsrmedium", "heightoffset", "heightunit", "rg", "xg", "rho", "earthmodel")


@dataclass
class Impedance:
    """What a unit of length has, by sequence values or by matrices (ohms, nanofarads), as OpenDSS keeps it."""

    phases: int = 3
    sequence: dict[str, float] = field(default_factory=lambda: dict(DEFAULTS))
    given: set[str] = field(default_factory=set)
    matrices: dict[str, Matrix] = field(default_factory=dict)
    units: str = "none"

    def by_matrix(self) -> bool:
        """Whether matrices rule."""
        return bool(self.matrices)

    def matrix_of(self, name: str) -> Matrix:
        """One of the matrices, from the sequence values where it isn't given."""
        if name in self.matrices:
            return self.matrices[name]
        letter = name[0]
        one, zero = self.sequence[letter + "1"], self.sequence[letter + "0"]
        own, other = (2 * one + zero) / 3, (zero - one) / 3
        return [[own if i == j else other for j in range(self.phases)] for i in range(self.phases)]


def apply(impedance: Impedance, setting: Setting, given: Given, hertz: float) -> bool:
    """Takes one setting of an impedance; says whether it was one."""
    name = setting.name
    if name in ("b1", "b0"):
        microsiemens = given.number_of(setting)
        value = microsiemens * 1e3 / (2 * math.pi * hertz)
        name = "c" + name[1]
        given.note(setting.place, f"{setting.name} as {name}={decimal(value)}")
    elif name in SEQUENCE:
        value = given.number_of(setting)
    elif name in MATRICES:
        rows = given.of(setting, Value.matrix)
        if name == "cmatrix" and "rmatrix" not in impedance.matrices and impedance.given - {"c1", "c0"}:
            given.refuse(name, "cmatrix with r1, x1, r0 or x0: OpenDSS mixes two forms")
        if len(rows) != impedance.phases:
            given.refuse(name, f"{name} has {len(rows)} rows for {impedance.phases} phases")
            return True
        impedance.matrices[name] = rows
        return True
    else:
        return False
    if impedance.matrices:
        given.refuse(name, f"{name} after a matrix: OpenDSS then takes the whole line from its sequence values")
    impedance.sequence[name] = value
    impedance.given.add(name)
    return True


def impedance_pairs(impedance: Impedance, given: Given) -> dict[str, str]:
    """The pairs of an impedance; what OpenDSS takes where nothing is given is written out, and said."""
    pairs: dict[str, str] = {}
    if impedance.by_matrix():
        missing = [n for n in MATRICES if n not in impedance.matrices]
        for name in MATRICES:
            pairs[name] = matrix(impedance.matrix_of(name))
    else:
        missing = [n for n in SEQUENCE if n not in impedance.given]
        for name in SEQUENCE:
            pairs[name] = decimal(impedance.sequence[name])
    if missing:
        given.note(given.place, f"OpenDSS's own {' '.join(missing)}, which the source doesn't give")
    return pairs


def ratings(given: Given) -> dict[str, str]:
    """Ratings, which the profile takes and doesn't use."""
    found: dict[str, str] = {}
    for name in KEPT:
        value = given.optional(name)
        if value is not None:
            found[name] = decimal(value)
    return found


def grounded(impedance: Impedance, kept: list[int]) -> Impedance:
    """The impedance with every conductor but these taken out as grounded at both ends."""
    order = kept + [i for i in range(impedance.phases) if i not in kept]
    resistance, reactance = impedance.matrix_of("rmatrix"), impedance.matrix_of("xmatrix")
    full: ComplexMatrix = [[complex(resistance[i][j], reactance[i][j]) for j in order] for i in order]
    series = kron(full, len(kept))
    capacitance = impedance.matrix_of("cmatrix")
    return Impedance(
        phases=len(kept),
        units=impedance.units,
        matrices={
            "rmatrix": [[v.real for v in row] for row in series],
            "xmatrix": [[v.imag for v in row] for row in series],
            "cmatrix": [[capacitance[i][j] for j in kept] for i in kept],
        },
    )


@dataclass
class Conductors:
    """Translates Linecodes and Lines; `codes` are those of the source, `made` those that geometries need besides."""

    hertz: float
    geometries: Geometries
    codes: dict[str, Impedance] = field(default_factory=dict)
    made: dict[tuple[str, float], Item] = field(default_factory=dict)

    # ------------------------------------------------------------ codes

    def linecode(self, given: Given) -> list[Item]:
        """A Linecode; one of four conductors stands for what its lines are reduced to."""
        impedance = Impedance(phases=given.whole("nphases", 3))
        for setting in given.element.settings:
            if apply(impedance, setting, given, self.hertz):
                given.read.add(setting.name)
            elif setting.name == "units":
                impedance.units = profile_unit(given.of(setting, Value.word), setting, given)
                given.read.add("units")
        frequency(given, self.hertz)
        impedance = self.reduced_code(given, impedance)
        self.codes[given.element.name.lower()] = impedance
        pairs = {"nphases": str(impedance.phases), "units": impedance.units}
        kept = ratings(given)
        given.drop(SILENT, "has no part in the flow at the base frequency")
        given.rest()
        if impedance.phases > 3:
            given.findings.translated(given.place, f"{impedance.phases} conductors: written at the lines that use it")
            return []
        pairs |= impedance_pairs(impedance, given) | kept
        return [Item("linecode", given.name, pairs, given.place, given.comments)]

    def reduced_code(self, given: Given, impedance: Impedance) -> Impedance:
        """`kron=yes` takes the neutral out."""
        neutral = given.whole("neutral", impedance.phases)
        if not given.truth("kron", False):
            return impedance
        if not 1 <= neutral <= impedance.phases or impedance.phases < 2:
            raise Unreadable(given.where("neutral", "kron"), "the code has no such neutral")
        kept = [i for i in range(impedance.phases) if i != neutral - 1]
        given.note(given.where("kron"), f"conductor {neutral} is taken out by Kron's reduction")
        return self.kron(given, impedance, kept)

    def kron(self, given: Given, impedance: Impedance, kept: list[int]) -> Impedance:
        """Kron's reduction, with a cause where there is none."""
        try:
            return grounded(impedance, kept)
        except NoGeometry as error:
            raise Unreadable(given.place, str(error)) from None

    # ------------------------------------------------------------ lines

    def line(self, given: Given) -> list[Item]:
        """A Line, and the Linecode of its geometry where no line before needed it."""
        state = LineState()
        for setting in given.element.settings:
            self.take(state, setting, given)
        frequency(given, self.hertz)
        made: list[Item] = []
        if given.has("geometry", "spacing"):
            made = self.from_geometry(state, given)
        buses = [self.end(given, name) for name in ("bus1", "bus2")]
        buses = self.conductors(state, given, buses)
        pairs = {"bus1": str(buses[0]), "bus2": str(buses[1])} | self.data_pairs(state, given) | ratings(given)
        given.drop(SILENT, "has no part in the flow at the base frequency")
        given.rest()
        return [*made, Item("line", given.name, pairs, given.place, given.comments)]

    def take(self, state: LineState, setting: Setting, given: Given) -> None:
        """One setting of a line, in order."""
        name = setting.name
        if name == "linecode":
            self.take_code(state, setting, given)
        elif name == "length":
            state.length, state.length_set = given.number_of(setting), True
        elif name == "units":
            state.units = profile_unit(given.of(setting, Value.word), setting, given)
        elif name == "phases":
            self.take_phases(state, given.of(setting, Value.whole), given)
        elif name == "switch":
            if given.of(setting, Value.truth):
                phases = state.own.phases
                state.own = Impedance(phases=phases, sequence=dict(SWITCH))
                state.code, state.form = "", "switch"
                state.length, state.length_set, state.units = 0.001, False, "none"
        elif name in SEQUENCE or name in MATRICES or name in ("b1", "b0"):
            if state.form == "code":
                given.refuse(name, f"{name} after linecode: OpenDSS mixes the code's data with the line's own")
            apply(state.own, setting, given, self.hertz)
            state.form = "own" if state.form != "switch" or state.own.by_matrix() else "switch"
        else:
            return
        given.read.add(name)

    def take_code(self, state: LineState, setting: Setting, given: Given) -> None:
        """The data of a code, as it is."""
        name = setting.value.text.strip()
        found = self.codes.get(name.lower())
        if found is None:
            raise Unreadable(setting.place, f"there is no linecode {name}")
        state.form, state.code = "code", given.clean("linecode", name, setting.place)
        state.code_phases = found.phases
        state.own = replace(found, given=set(found.given), sequence=dict(found.sequence), matrices=dict(found.matrices))

    def take_phases(self, state: LineState, phases: int, given: Given) -> None:
        """The number of conductors."""
        if not 1 <= phases <= 9:
            raise Unreadable(given.where("phases"), f"phases={phases}")
        if phases != state.own.phases and state.own.by_matrix():
            given.refuse("phases", f"phases={phases} after matrices of {state.own.phases} conductors")
            return
        state.own = replace(state.own, phases=phases)

    def from_geometry(self, state: LineState, given: Given) -> list[Item]:
        """The Linecode of a geometry: one for all lines that have the same."""
        count, series, capacitance, source = self.geometries.of_line(given, self.hertz)
        wires = " ".join(given.last[n].value.text for n in ("wires", "cncables", "tscables") if n in given.last)
        rho = given.number("rho", 100.0)
        key = (f"{source} {wires}".lower(), rho)
        impedance = Impedance(
            phases=count,
            units="mi",
            matrices={
                "rmatrix": [[v.real for v in row] for row in series],
                "xmatrix": [[v.imag for v in row] for row in series],
                "cmatrix": capacitance,
            },
        )
        state.own, state.form = impedance, "code"
        if state.units == "none":
            state.units = "m"
            given.note(given.where("units", "geometry", "spacing"), "a length without units is in meters there")
        if count > 3:
            state.form = "own"
            state.own = impedance
            return []
        name = self.made[key].name if key in self.made else given.names.fresh("linecode", source.partition(".")[2])
        state.code, state.code_phases = name, count
        given.note(given.where("geometry", "spacing"), f"{source} as a Linecode")
        if key in self.made:
            return []
        pairs = {"nphases": str(count), "units": "mi"} | {n: matrix(impedance.matrices[n]) for n in MATRICES}
        comment = f"{source} by Carson's equations and Kron's reduction, rho={decimal(rho)} ohm m"
        self.made[key] = Item("linecode", name, pairs, given.place, [comment])
        return [self.made[key]]

    def end(self, given: Given, name: str) -> Bus:
        """A bus of a line, which must be there."""
        found = given.bus(name)
        if found is None:
            raise Unreadable(given.place, f"{name} isn't given")
        return found

    def conductors(self, state: LineState, given: Given, buses: list[Bus]) -> list[Bus]:
        """The buses with a node for each conductor; those at ground at both ends are taken out."""
        phases = state.own.phases
        nodes = []
        for name, bus in zip(("bus1", "bus2"), buses):
            found = list(bus.nodes)
            if len(found) > phases:
                given.note(given.where(name), f"{bus}: a line of {phases} conductors has {phases} nodes")
                found = found[:phases]
            elif found and len(found) < phases:
                default = list(range(1, phases + 1))
                filled = found + default[len(found) :]
                given.note(
                    given.where(name), f"{bus} is {bus.name}.{'.'.join(map(str, filled))}, as OpenDSS fills it up"
                )
                found = filled
            nodes.append(found or list(range(1, phases + 1)))
        kept = [i for i in range(phases) if nodes[0][i] or nodes[1][i]]
        if not kept:
            raise Unreadable(given.place, "both ends of the line are at ground")
        if len(kept) > 3:
            given.refuse("phases", f"{len(kept)} conductors that aren't grounded at both ends")
            return buses
        if len(kept) < phases:
            given.note(given.place, "conductors that are grounded at both ends are taken out by Kron's reduction")
            state.own, state.form = self.kron(given, state.own, kept), "own"
            self.scale(state, given)
        return [
            bus if not bus.nodes and len(kept) == phases else bus.at(*(found[i] for i in kept))
            for bus, found in zip(buses, nodes)
        ]

    def scale(self, state: LineState, given: Given) -> None:
        """An impedance of its own has the line's unit of length."""
        if "none" in (state.own.units, state.units) or state.own.units == state.units:
            return
        factor = FEET[state.units] / FEET[state.own.units]
        state.own.matrices = {n: [[v * factor for v in row] for row in m] for n, m in state.own.matrices.items()}

    def data_pairs(self, state: LineState, given: Given) -> dict[str, str]:
        """The pairs that say what a line is made of."""
        pairs: dict[str, str] = {}
        length = {"length": decimal(state.length)} if state.length_set or state.length != 1 else {}
        units = {"units": state.units} if state.units != "none" else {}
        if state.form == "switch":
            own = {n: decimal(v) for n, v in state.own.sequence.items() if n in state.own.given}
            if not state.length_set:
                length = {}
            return {"phases": str(state.own.phases), "switch": "y"} | own | length | units
        if state.form == "code":
            pairs["linecode"] = state.code
            if state.own.phases != state.code_phases:
                pairs["phases"] = str(state.own.phases)
            return pairs | length | units
        if state.form == "default":
            given.note(given.place, "no impedance is given: OpenDSS's own stands here")
        pairs["phases"] = str(state.own.phases)
        return pairs | impedance_pairs(state.own, given) | length | units


@dataclass
class LineState:
    """A line while its settings are taken in order."""

    own: Impedance = field(default_factory=Impedance)
    form: str = "default"
    code: str = ""
    code_phases: int = 3
    length: float = 1.0
    length_set: bool = False
    units: str = "none"


def profile_unit(text: str, setting: Setting, given: Given) -> str:
    """A unit of length that the profile has."""
    unit = unit_of(text)
    if unit == "mm":
        given.refuse(setting.name, "units=mm isn't in the profile")
    elif unit != text:
        given.note(setting.place, f"units={text} is {unit}")
    return unit


def frequency(given: Given, hertz: float) -> None:
    """A base frequency other than the circuit's would scale reactances."""
    found = given.optional("basefreq")
    if found is not None and found != hertz:
        given.refuse("basefreq", f"basefreq={decimal(found)} in a circuit of {decimal(hertz)} Hz")
