"""Impedances and capacitances of lines from their geometry, as Kersting has them.

W. H. Kersting, *Distribution System Modeling and Analysis*: the modified equations of Carson (chapter 4), the
reduction of Kron (chapter 4), concentric neutral and tape-shielded cables (chapter 4), and the potential coefficients
of overhead lines (chapter 5). Distances are in feet, resistances and impedances in ohms per mile, capacitances in
nanofarads per mile, frequencies in hertz and the earth's resistivity in ohm meters.
"""

from __future__ import annotations

import math
from collections.abc import Sequence
from dataclasses import dataclass

from .values import Matrix

ComplexMatrix = list[list[complex]]

FEET_PER_MILE = 5280.0
RESISTANCE = 0.00158836
"""Carson's earth return resistance, in ohms per mile for each hertz."""
REACTANCE = 0.00202237
"""Carson's reactance, in ohms per mile for each hertz and each unit of the logarithm."""
EARTH = 7.6786
"""Carson's constant term of the logarithm for distances in feet."""
POTENTIAL = 11.17689
"""Potential coefficient of air, in miles per microfarad for each unit of the logarithm."""
VACUUM = 8.8541878128e-12 * 1609.344 * 1e9
"""Permittivity of vacuum, in nanofarads per mile."""


class NoGeometry(Exception):
    """The geometry gives no impedance."""


@dataclass(frozen=True)
class Conductor:
    """A conductor at its place: feet across, feet above ground, ohms per mile, feet, feet."""

    across: float
    height: float
    resistance: float
    gmr: float
    radius: float


def distance(a: Conductor, b: Conductor) -> float:
    """Feet between two conductors."""
    return math.hypot(a.across - b.across, a.height - b.height)


def image_distance(a: Conductor, b: Conductor) -> float:
    """Feet from a conductor to the image of another below the ground."""
    return math.hypot(a.across - b.across, a.height + b.height)


def primitive_impedance(wires: Sequence[Conductor], hertz: float, rho: float) -> ComplexMatrix:
    """Carson's modified equations: the impedance of every conductor with earth return, ohms per mile."""
    earth = EARTH + 0.5 * math.log(rho / hertz)
    rows: ComplexMatrix = []
    for i, a in enumerate(wires):
        row: list[complex] = []
        for j, b in enumerate(wires):
            span = a.gmr if i == j else distance(a, b)
            if span <= 0:
                raise NoGeometry("two conductors stand at one place, or a GMR is 0")
            reactance = REACTANCE * hertz * (math.log(1 / span) + earth)
            row.append(complex((a.resistance if i == j else 0.0) + RESISTANCE * hertz, reactance))
        rows.append(row)
    return rows


def potentials(wires: Sequence[Conductor]) -> Matrix:
    """The potential coefficients of overhead conductors, miles per microfarad."""
    rows: Matrix = []
    for i, a in enumerate(wires):
        row: list[float] = []
        for j, b in enumerate(wires):
            span = a.radius if i == j else distance(a, b)
            if span <= 0 or image_distance(a, b) <= 0:
                raise NoGeometry("a radius is 0, two conductors stand at one place, or one lies on the ground")
            row.append(POTENTIAL * math.log(image_distance(a, b) / span))
        rows.append(row)
    return rows


def kron(matrix: Sequence[Sequence[complex]], kept: int) -> ComplexMatrix:
    """Kron's reduction: the last conductors, at no voltage to ground, taken out until `kept` are left."""
    rows = [[complex(v) for v in row] for row in matrix]
    while len(rows) > kept:
        last = len(rows) - 1
        pivot = rows[last][last]
        if pivot == 0:
            raise NoGeometry("a grounded conductor has no impedance")
        rows = [[rows[i][j] - rows[i][last] * rows[last][j] / pivot for j in range(last)] for i in range(last)]
    return rows


def inverse(matrix: Matrix) -> Matrix:
    """The inverse of a small real matrix, by elimination with the largest pivot."""
    size = len(matrix)
    rows = [list(row) + [1.0 if i == j else 0.0 for j in range(size)] for i, row in enumerate(matrix)]
    for column in range(size):
        best = max(range(column, size), key=lambda r: abs(rows[r][column]))
        if rows[best][column] == 0:
            raise NoGeometry("the potential coefficients have no inverse")
        rows[column], rows[best] = rows[best], rows[column]
        pivot = rows[column][column]
        rows[column] = [v / pivot for v in rows[column]]
        for r in range(size):
            factor = rows[r][column]
            if r != column and factor:
                rows[r] = [v - factor * p for v, p in zip(rows[r], rows[column])]
    return [row[size:] for row in rows]


def overhead(wires: Sequence[Conductor], phases: int, hertz: float, rho: float) -> tuple[ComplexMatrix, Matrix]:
    """Impedance (ohms per mile) and capacitance (nanofarads per mile) of the phases; the rest are grounded neutrals."""
    impedance = kron(primitive_impedance(wires, hertz, rho), phases)
    reduced = [[v.real for v in row] for row in kron(potentials(wires), phases)]
    return impedance, [[1000 * v for v in row] for row in inverse(reduced)]


@dataclass(frozen=True)
class Cable:
    """A cable: its core at its place, its shield's radius and resistance, its insulation.

    Feet and ohms per mile, as for a Conductor. `shield_gmr` is the shield's own, `shield_radius` the distance from the
    core to it; `inner` and `outer` are the radii of the insulation and `permittivity` is relative to vacuum.
    """

    core: Conductor
    shield_resistance: float
    shield_gmr: float
    shield_radius: float
    permittivity: float
    inner: float
    outer: float


def concentric_gmr(strands: int, strand_gmr: float, ring: float) -> float:
    """The GMR of a ring of strands, in the unit of its arguments."""
    return float((strand_gmr * strands * ring ** (strands - 1)) ** (1 / strands))


def cables(group: Sequence[Cable], bare: Sequence[Conductor], hertz: float, rho: float) -> tuple[ComplexMatrix, Matrix]:
    """Impedance (ohms per mile) and capacitance (nanofarads per mile) of shielded cables with grounded shields."""
    cores = [c.core for c in group]
    shields = [Conductor(c.core.across, c.core.height, c.shield_resistance, c.shield_gmr, 1.0) for c in group]
    size, wires = len(group), [*cores, *shields, *bare]
    spread = [replace_across(w, i) for i, w in enumerate(wires)]
    full = primitive_impedance(spread, hertz, rho)
    earth = EARTH + 0.5 * math.log(rho / hertz)
    for i, a in enumerate(wires):
        for j, b in enumerate(wires):
            if i == j:
                continue
            own = abs(i - j) == size and max(i, j) < 2 * size
            span = group[min(i, j)].shield_radius if own else distance(a, b)
            if span <= 0:
                raise NoGeometry("two cables stand at one place")
            full[i][j] = complex(RESISTANCE * hertz, REACTANCE * hertz * (math.log(1 / span) + earth))
    capacitance = [[0.0] * size for _ in range(size)]
    for i, cable in enumerate(group):
        if not 0 < cable.inner < cable.outer:
            raise NoGeometry("the insulation of a cable has no thickness")
        capacitance[i][i] = 2 * math.pi * VACUUM * cable.permittivity / math.log(cable.outer / cable.inner)
    return kron(full, size), capacitance


def replace_across(wire: Conductor, index: int) -> Conductor:
    """The conductor at a place of its own, where only its own impedance is asked for."""
    return Conductor(wire.across + 1000.0 * (index + 1), wire.height, wire.resistance, wire.gmr, wire.radius)
