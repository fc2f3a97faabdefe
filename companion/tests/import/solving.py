"""Voltages of a script of the profile, by the equations of tools/model.

The model gives the rows of the circuit and, at the end, each row's exact mismatch at the state that was found. The
state itself is sought here in floating point, since the model's own elimination in whole numbers takes a minute for
feeders of this size.
"""

from __future__ import annotations

import cmath
from typing import Any

Sparse = list[dict[int, complex]]


def columns_of(net: Any) -> Sparse:
    """The model's linear rows as complex numbers, in volts, amperes, ohms and siemens."""
    rows: Sparse = [{} for _ in range(net.nn + net.nb)]
    for row, column, numerator, denominator in net.terms:
        if row < 2 * len(rows) and column < 2 * len(rows) and column % 2 == 0:
            part = numerator / denominator
            value = complex(part, 0) if row % 2 == 0 else complex(0, part)
            line = rows[row // 2]
            line[column // 2] = line.get(column // 2, 0) + value
    return rows


def factored(rows: Sparse) -> list[tuple[int, int, complex, list[tuple[int, complex]], dict[int, complex]]]:
    """Gauss's elimination with the sparsest good pivots: for each step its row, column, pivot, multipliers and row."""
    left = {i: dict(r) for i, r in enumerate(rows)}
    where: dict[int, set[int]] = {}
    for i, row in left.items():
        for j in row:
            where.setdefault(j, set()).add(i)
    steps = []
    while left:
        best = None
        for i, row in left.items():
            largest = max(abs(v) for v in row.values())
            for j, v in row.items():
                if abs(v) >= 0.01 * largest:
                    cost = (len(row) - 1) * (len(where[j]) - 1)
                    if best is None or cost < best[0]:
                        best = (cost, i, j)
            if best is not None and best[0] <= 1:
                break
        assert best is not None
        _, i, j = best
        row = left.pop(i)
        pivot = row.pop(j)
        for k in row:
            where[k].discard(i)
        where[j].discard(i)
        multipliers = []
        for other in list(where[j]):
            line = left[other]
            factor = line.pop(j) / pivot
            multipliers.append((other, factor))
            for k, v in row.items():
                if k in line:
                    line[k] -= factor * v
                else:
                    line[k] = -factor * v
                    where[k].add(other)
        where[j] = set()
        steps.append((i, j, pivot, multipliers, row))
    return steps


def solved(steps: Any, right: list[complex]) -> list[complex]:
    """The solution for a right side."""
    values = list(right)
    for i, _, _, multipliers, _ in steps:
        for other, factor in multipliers:
            values[other] -= factor * values[i]
    found = [0j] * len(values)
    for i, j, pivot, _, row in reversed(steps):
        found[j] = (values[i] - sum(v * found[k] for k, v in row.items())) / pivot
    return found


def load_current(load: Any, voltage: complex) -> complex:
    """The current that a phase of a load of model 1 or 5 draws at a voltage, in amperes."""
    power = complex(load.p, load.q) / 1000
    low, high = load.vlo / 1e6, load.vhi / 1e6
    size = min(max(abs(voltage), low), high)
    across = size * size if load.model == 1 else load.vn / 1e6 * size
    current: complex = (power / across).conjugate() * voltage
    return current


def state(net: Any) -> list[complex]:
    """Voltages of the nodes and currents of the branches, by steps with the loads at their nominal admittances."""
    rows = columns_of(net)
    loads = [load for load in net.loads if load.model != 2]
    admittances = []
    for load in loads:
        admittance = complex(load.p, -load.q) * 1e9 / load.vn**2
        admittances.append(admittance)
        for first, one in ((load.f, 1), (load.s, -1)):
            for second, two in ((load.f, 1), (load.s, -1)):
                if first is not None and second is not None:
                    rows[first][second] = rows[first].get(second, 0) + one * two * admittance
    steps = factored(rows)
    size = len(rows)
    constant = [complex(net.constants[2 * k], net.constants[2 * k + 1]) / 1e6 for k in range(size)]
    found = solved(steps, [-v for v in constant])
    for _ in range(200):
        right = [-v for v in constant]
        for load, admittance in zip(loads, admittances):
            first = found[load.f] if load.f is not None else 0j
            second = found[load.s] if load.s is not None else 0j
            excess = admittance * (first - second) - load_current(load, first - second)
            for node, sign in ((load.f, 1), (load.s, -1)):
                if node is not None:
                    right[node] += sign * excess
        before, found = found, solved(steps, right)
        if max(abs(a - b) for a, b in zip(before[: net.nn], found[: net.nn])) < 1e-8:
            return found
    raise AssertionError("the state wasn't found in 200 steps")


def voltages(text: str, controls_off: bool = True) -> dict[str, complex]:
    """The voltages of the last Solve of a script, in volts by `bus.node`; each row is met within a thousandth."""
    import certified
    import network
    import script

    found: dict[str, complex] = {}

    def solve(circuit: Any, options: Any) -> None:
        assert not controls_off or options["controlmode"] == "off" or not any(k[0] == "regcontrol" for k in circuit)
        net = network.Network(circuit, options["hertz"], 1 if options["mode"] == "daily" else 0)
        values = state(net)
        units = [u for v in values for u in (round(v.real * 1e6), round(v.imag * 1e6))]
        for load in net.loads:
            if load.mag is not None:
                first = values[load.f] if load.f is not None else 0j
                second = values[load.s] if load.s is not None else 0j
                units.append(round(abs(first - second) * 1e6))
        worst = max(certified.mismatches(net, units))
        assert worst <= 1000, f"a row is missed by {worst / 1e6}"
        found.clear()
        found.update({f"{bus}.{node}": v for (bus, node), v in zip(net.nodes, values)})

    runner = script.Script({"m.dss": text.encode()}, solve)
    fault = runner.read("m.dss", 0, "m.dss")
    assert fault is None, fault
    return found


def degrees(value: complex) -> float:
    """An angle in degrees."""
    return cmath.phase(value) * 180 / cmath.pi
