"""Kersting's ladder sweep over a radial circuit, and how it is compared with a certified state. Whole numbers alone.

It takes no row, no matrix and no inverse of the procedure: only the data of the elements.
"""
from math import isqrt
from certified import mismatches
from controls import micro
from elements import (
    B40, leakage, line_charging, line_ends, line_impedance, near_at, pairs_of, ratio, source_impedance, source_nodes,
    source_volts, terminals, u_of)
from script import near


# ---------------------------------------------------------------- the order

class Section:
    """A Line or a Transformer between two sides: the nodes of each, and from which sides it can be taken."""

    def __init__(self, key, e):
        self.key, self.name, self.e = key, '%s.%s' % key, e
        if key[0] == 'line':
            self.sides = line_ends(e)
            is_grounded = any(n == 0 for side in self.sides for _, n in side)
            self.ways = [w for w in (0, 1) if not is_grounded and are_distinct(self.sides[1 - w])]
        else:
            sides = zip(e['buses'], terminals(e))
            self.pairs = [[tuple((bus[0], n) for n in pair) for pair in side] for bus, side in sides]
            self.sides = [[node for pair in side for node in pair if node[1]] for side in self.pairs]
            own = [[node for node in pair if node[1]] for pair in self.pairs[1]]
            self.ways = [0] if all(len(it) == 1 for it in own) and are_distinct(self.sides[1]) else []

    def way_from(self, nodes):
        """The side that is reached where none of the other is, or None."""
        return next((w for w in self.ways if all(it in nodes for it in self.sides[w])
                     and not any(it in nodes for it in self.sides[1 - w])), None)


def are_distinct(nodes):
    return len(set(nodes)) == len(nodes)


def order_of(circuit):
    """The sections that are taken, from the source outwards, each with the side that was reached first."""
    sections = [Section(key, e) for key, e in circuit.items() if key[0] in ('line', 'transformer')]
    nodes = {node for node in source_nodes(circuit['vsource', 'source']) if node[1]}
    order, before = [], None
    while before != len(order):
        before = len(order)
        for s in sections:
            way = None if s in (it for it, _ in order) else s.way_from(nodes)
            if way is not None:
                order.append((s, way))
                nodes.update(s.sides[0], s.sides[1])
    return order


def first_offending(circuit):
    """The first element for which the circuit isn't radial, or None."""
    taken = {s.key for s, _ in order_of(circuit)}
    for key, e in circuit.items():
        if key == ('vsource', 'source'):
            nodes = source_nodes(e)
            is_bad = not are_distinct(nodes) or any(n == 0 for _, n in nodes)
        else:
            is_bad = key[0] == 'vsource' or key[0] in ('line', 'transformer') and key not in taken
        if is_bad:
            return '%s.%s' % key
    return None


# ---------------------------------------------------------------- a sweep

class OutOfRange(Exception):
    def __init__(self, place):
        self.place = place


def times(entry, i):
    """A complex number (numerators and denominator) times a phasor, each product of parts by itself to the nearest."""
    g, b, den = entry

    def product(n, v):
        return near(near_at(n, den) * v, B40)
    return product(g, i[0]) - product(b, i[1]), product(g, i[1]) + product(b, i[0])


def plus(a, b, sign=1):
    return a[0] + sign * b[0], a[1] + sign * b[1]


class Sweeping:
    """The voltages and currents of a radial circuit while it is swept, and what each node draws."""

    def __init__(self, circuit, net):
        self.circuit, self.net, self.order = circuit, net, order_of(circuit)
        self.x, self.drawn = [0] * net.n, {}
        self.source = circuit['vsource', 'source']
        self.first_branch = {}
        for k, (name, _) in enumerate(net.branches):
            self.first_branch.setdefault(name, k)

    def voltage(self, node):
        k = self.net.at(node)
        return (0, 0) if k is None else (self.x[2 * k], self.x[2 * k + 1])

    def current(self, name, phase):
        k = self.net.nn + self.first_branch[name] + phase
        return self.x[2 * k], self.x[2 * k + 1]

    def put(self, place, value):
        if abs(value) > B40:
            raise OutOfRange(place)
        self.x[place] = value

    def put_phasor(self, k, value):
        for part in (0, 1):
            self.put(2 * k + part, value[part])

    def put_current(self, name, phase, value):
        self.put_phasor(self.net.nn + self.first_branch[name] + phase, value)

    def draw(self, node, current, sign=1):
        if node[1]:
            self.drawn[node] = plus(self.drawn.get(node, (0, 0)), current, sign)

    def drawn_at(self, node):
        return self.drawn.get(node, (0, 0))

    # ------------------------------------------------------------ forward

    def forward(self):
        self.forward_source()
        for section, way in self.order:
            if section.key[0] == 'line':
                self.forward_line(section, way)
            else:
                self.forward_transformer(section)
        for load in self.net.loads:
            if load.mag is not None:
                p, q, _ = self.net.state(load, self.x)
                self.put(load.mag, isqrt(p * p + q * q))

    def dropped(self, name, row, start, sign):
        """The voltage behind an impedance, each of whose entries takes its product with its current off, or adds it."""
        for m, entry in enumerate(row):
            start = plus(start, times(entry, self.current(name, m)), sign)
        return start

    def forward_source(self):
        e = self.source
        for node, volts, row in zip(source_nodes(e), source_volts(e), source_impedance(e)):
            self.put_phasor(self.net.at(node), self.dropped('vsource.source', row, volts, -1))

    def forward_line(self, section, way):
        for k, row in enumerate(line_impedance(section.e)):
            inner, outer = section.sides[way][k], section.sides[1 - way][k]
            made = self.dropped(section.name, row, self.voltage(inner), 1 if way else -1)
            self.put_phasor(self.net.at(outer), made)

    def forward_transformer(self, section):
        n, den = ratio(section.e)
        for k, (one, two) in enumerate(zip(*section.pairs)):
            w1 = plus(self.voltage(one[0]), self.voltage(one[1]), -1)
            w2 = plus(times((n, 0, den), w1), times(leakage(section.e), self.current(section.name, k)), -1)
            node, sign = (two[0], 1) if two[0][1] else (two[1], -1)
            self.put_phasor(self.net.at(node), (sign * w2[0], sign * w2[1]))

    # ------------------------------------------------------------ backward

    def backward(self):
        self.drawn = {}
        self.draw_loads()
        for (cls, _), e in self.circuit.items():
            if cls == 'capacitor' and e['now']:
                self.draw_capacitor(e)
            elif cls == 'line':
                self.draw_charging(e)
        for section, way in reversed(self.order):
            if section.key[0] == 'line':
                self.backward_line(section, way)
            else:
                self.backward_transformer(section)
        for k, node in enumerate(source_nodes(self.source)):
            self.put_current('vsource.source', k, self.drawn_at(node))

    def draw_loads(self):
        nodes = self.net.nodes
        for load in self.net.loads:
            p, q, _ = self.net.state(load, self.x)
            re, im, den = self.net.quotients(load, p, q, isqrt(p * p + q * q))
            current = near(re, den), near(im, den)
            for place, sign in ((load.f, 1), (load.s, -1)):
                if place is not None:
                    self.draw(nodes[place], current, sign)

    def draw_capacitor(self, e):
        bus, v = e['bus1'], u_of(e['kv'], e['phases'], e['conn'])
        for pair in pairs_of(bus, e['phases'], e['conn']):
            ends = [(bus[0], n) for n in pair]
            at = plus(self.voltage(ends[0]), self.voltage(ends[1]), -1)
            current = times((0, e['kvar'] * 10 ** 6, e['phases'] * v * v), at)
            self.draw(ends[0], current)
            self.draw(ends[1], current, -1)

    def draw_charging(self, e):
        for nodes in line_ends(e):
            for node, row in zip(nodes, line_charging(e, self.net.hertz)):
                for other, (b, den) in zip(nodes, row):
                    self.draw(node, times((0, b, den), self.voltage(other)))

    def backward_line(self, section, way):
        sign = -1 if way else 1
        for k, outer in enumerate(section.sides[1 - way]):
            drawn = self.drawn_at(outer)
            self.put_current(section.name, k, (sign * drawn[0], sign * drawn[1]))
            self.draw(section.sides[way][k], drawn)

    def backward_transformer(self, section):
        n, den = ratio(section.e)
        for k, (one, two) in enumerate(zip(*section.pairs)):
            node, sign = (two[0], 1) if two[0][1] else (two[1], -1)
            drawn = self.drawn_at(node)
            current = sign * drawn[0], sign * drawn[1]
            self.put_current(section.name, k, current)
            inner = times((n, 0, den), current)
            self.draw(one[0], inner)
            self.draw(one[1], inner, -1)

    # ------------------------------------------------------------ to the end

    def is_still(self, before):
        """Whether no part of a node's voltage moved by more than 10^-8 of its weight."""
        w = self.net.weights(self.x)
        return all(abs(self.x[k] - before[k]) * 10 ** 8 <= w[k] for k in range(2 * self.net.nn))

    def run(self, most):
        """The number of sweeps after which the state is still, or the record of why there is none."""
        sweep = 0
        try:
            self.forward()
            while sweep < most:
                before, sweep = list(self.x), sweep + 1
                self.backward()
                self.forward()
                if self.is_still(before):
                    return sweep, None
        except OutOfRange as f:
            return None, 'ladder,out of range,%s,%d' % (self.net.name(f.place), sweep)
        return None, 'ladder,not converged,%d' % most


# ---------------------------------------------------------------- beside the certified state

def record(circuit, options, made):
    """What the sweep comes to beside a certified state."""
    net = made.net
    sweeping = Sweeping(circuit, net)
    sweeps, ended = sweeping.run(10 * options['maxiterations'])
    if ended:
        return ended
    mismatch = mismatches(net, sweeping.x)
    change = [abs(a - b) for a, b in zip(sweeping.x, made.x)]
    apart = [k for k, e in enumerate(mismatch) if e > 1000]
    apart += [k for k, v in enumerate(change) if net.kind(k) != 'branch' and v > made.boxes[k]]
    if apart:
        return 'ladder,apart,%s' % net.name(apart[0])
    radii, reached = made.judged([max(pair) for pair in zip(mismatch, made.mismatch)])
    if reached:
        return 'ladder,wide,%s' % net.name(reached[0])
    nodes = slice(2 * net.nn)
    return 'ladder,agrees,%d,%s,%s' % (sweeps, micro(max(change[nodes])), micro(max(radii[nodes])))
