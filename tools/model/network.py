"""The equations of a circuit: its unknowns by name, its linear rows, and its part loads. Whole numbers alone."""
from ready import check_ready
from script import Refused, near
from elements import (
    B40, ceil, clamp, leakage, limits_of, line_charging, line_ends, line_impedance, mentions, near_at, pairs_of,
    part_loads, phase_power, ratio, source_impedance, source_nodes, source_volts, terminals, u_of)

BRANCHES = ('vsource', 'line', 'transformer')


class LoadPhase:
    """A part load at a phase of a load: its nodes, model, power and limits, and the place of its magnitude."""

    def __init__(self, ends, model, p, q, vn, limits, mag):
        self.f, self.s = ends
        self.model, self.p, self.q, self.vn = model, p, q, vn
        self.vlo, self.vhi = limits
        self.mag = mag if model == 5 else None


class Layout:
    """The unknowns of a circuit by name: nodes in the order of first mention, branch phases, and magnitudes."""

    def __init__(self, circuit):
        self.node_places, self.branches, self.mags = {}, [], []
        for (cls, name), e in circuit.items():
            for node in mentions(cls, e):
                if node[1]:
                    self.node_places.setdefault(node, len(self.node_places))
            if cls in BRANCHES:
                self.branches += [('%s.%s' % (cls, name), k + 1) for k in range(e['phases'])]
            if cls == 'load' and e['model'] in (5, 8):
                self.mags += [('load.' + name, k + 1) for k in range(e['phases'])]
        self.nodes = list(self.node_places)
        self.nn, self.nb, self.nm = len(self.nodes), len(self.branches), len(self.mags)
        self.n = 2 * (self.nn + self.nb) + self.nm

    def at(self, node):
        """The place of a node; ground has none."""
        return self.node_places[node] if node[1] else None

    def at_all(self, nodes):
        return [self.at(node) for node in nodes]


class Network(Layout):
    """The rows of a circuit at its positions and at the powers of an hour."""

    def __init__(self, circuit, hertz, hour=0, is_large=False):
        check_ready(circuit, hertz, is_large)
        super().__init__(circuit)
        self.circuit, self.hertz, self.hour = circuit, hertz, hour
        self.terms, self.owners = [], []      # (row, column, numerator, denominator), and the number of its element
        self.constants = [0] * self.n
        self.loads, self.heavy = [], []
        self.current_sum = 0
        self.branch, self.magnitude = self.nn, 2 * (self.nn + self.nb)
        for self.owner, ((cls, _), e) in enumerate(circuit.items()):
            put = getattr(self, 'put_' + cls, None)
            if put:
                put(e)
            if cls in BRANCHES:
                self.branch += e['phases']
        self.add_up()

    # ------------------------------------------------------------ elements

    def put_vsource(self, e):
        volts, z, b = source_volts(e), source_impedance(e), self.branch
        for k, node in enumerate(self.at_all(source_nodes(e))):
            self.constants[2 * (b + k)] += volts[k][0]
            self.constants[2 * (b + k) + 1] += volts[k][1]
            self.add(b + k, node, -1, 0, 1)
            self.add(node, b + k, -1, 0, 1)
            self.add_drop(k, z[k])

    def put_line(self, e):
        z, c, b = line_impedance(e), line_charging(e, self.hertz), self.branch
        ends = [self.at_all(nodes) for nodes in line_ends(e)]
        for k in range(e['phases']):
            for nodes, sign in zip(ends, (1, -1)):
                self.add(b + k, nodes[k], sign, 0, 1)
                self.add(nodes[k], b + k, sign, 0, 1)
                for m in range(e['phases']):
                    self.add(nodes[k], nodes[m], 0, *c[k][m])
            self.add_drop(k, z[k])

    def add_drop(self, phase, entries):
        """What the currents of a branch take off in the voltage equation of a phase."""
        for m, (r, x, den) in enumerate(entries):
            self.add(self.branch + phase, self.branch + m, -r, -x, den)

    def put_transformer(self, e):
        if e['kvas'][0] != e['kvas'][1]:
            raise Refused('unsupported')
        (an, ad), (zr, zx, den), b = ratio(e), leakage(e), self.branch
        buses = [bus[0] for bus in e['buses']]
        for k, pairs in enumerate(zip(*terminals(e))):
            ends = [self.at_all((bus, number) for number in pair) for bus, pair in zip(buses, pairs)]
            for (first, second), n, d in zip(ends, (an, -1), (ad, 1)):
                for node, sign in ((first, 1), (second, -1)):
                    self.add(b + k, node, sign * n, 0, d)
                    self.add(node, b + k, sign * n, 0, d)
            self.add(b + k, b + k, -zr, -zx, den)

    def put_capacitor(self, e):
        v = u_of(e['kv'], e['phases'], e['conn'])
        for ends in self.phase_ends(e) if e['now'] else []:
            self.add_shunt(*ends, 0, e['kvar'] * 10 ** 6, e['phases'] * v * v)
            self.current_sum += ceil(e['kvar'] * 10 ** 6, e['phases'] * v)

    def phase_ends(self, e):
        """The places of both nodes of each phase of a bank or load."""
        bus = e['bus1']
        return [(self.at((bus[0], x)), self.at((bus[0], y))) for x, y in pairs_of(bus, e['phases'], e['conn'])]

    def put_load(self, e):
        vn, limits = u_of(e['kv'], e['phases'], e['conn']), limits_of(e)
        parts = part_loads(e, *phase_power(self.circuit, e, self.hour))
        for _, p, q in parts:
            g = abs(p) + abs(q)
            if g > 10 ** 11 or g * 10 ** 9 > (limits[0] ** 2) << 12:
                self.heavy.append(self.owner)
        for ends in self.phase_ends(e):
            for model, p, q in parts:
                self.loads.append(LoadPhase(ends, model, p, q, vn, limits, self.magnitude))
                if model == 5:
                    self.magnitude += 1
                if model == 2:
                    self.add_shunt(*ends, p * 10 ** 9, -q * 10 ** 9, vn * vn)
                self.current_sum += ceil((abs(p) + abs(q)) * 10 ** 9, vn)

    def add_shunt(self, first, second, g, b, den):
        for row, down in ((first, 1), (second, -1)):
            for column, across in ((first, 1), (second, -1)):
                self.add(row, column, down * across * g, down * across * b, den)

    def add(self, row, column, g, b, den):
        """The complex number (g + j b) / den at a row and a column of complex unknowns."""
        if row is None or column is None:
            return
        for down, across, v in ((0, 0, g), (0, 1, -b), (1, 0, b), (1, 1, g)):
            if v:
                self.terms.append((2 * row + down, 2 * column + across, v, den))
                self.owners.append(self.owner)

    # ------------------------------------------------------------ matrix

    def add_up(self):
        self.rows = [{} for _ in range(self.n)]
        bad = list(self.heavy)
        for (r, c, num, den), owner in zip(self.terms, self.owners):
            v = near_at(num, den)
            if abs(v) > 1 << 54:
                bad.append(owner)
            self.rows[r][c] = self.rows[r].get(c, 0) + v
        bad = bad or [owner for (r, c, _, _), owner in zip(self.terms, self.owners) if abs(self.rows[r][c]) > 1 << 54]
        if bad:
            raise Refused('range', list(self.circuit.values())[min(bad)]['place'])

    # ------------------------------------------------------------ names

    def name(self, place):
        k = place // 2
        part = ' re' if place % 2 == 0 else ' im'
        if k < self.nn:
            return '%s.%d' % self.nodes[k] + part
        if k < self.nn + self.nb:
            return '%s %d' % self.branches[k - self.nn] + part
        return '%s %d mag' % self.mags[place - 2 * (self.nn + self.nb)]

    def kind(self, place):
        k = place // 2
        return 'node' if k < self.nn else 'branch' if k < self.nn + self.nb else 'magnitude'

    def weights(self, x):
        w = []
        for i in range(self.nn):
            w += [max(10 ** 6, abs(x[2 * i]) + abs(x[2 * i + 1]))] * 2
        w += [16 * self.current_sum + 10 ** 6] * (2 * self.nb)
        for i in range(self.nm):
            w.append(max(10 ** 6, abs(x[2 * (self.nn + self.nb) + i])))
        return w

    # ------------------------------------------------------------ loads

    def state(self, l, x):
        p = q = 0
        if l.f is not None:
            p, q = p + x[2 * l.f], q + x[2 * l.f + 1]
        if l.s is not None:
            p, q = p - x[2 * l.s], q - x[2 * l.s + 1]
        return p, q, x[l.mag] if l.mag is not None else 0

    def quotients(self, l, p, q, m):
        """The numerators of both parts of the current of a part load, and their denominator."""
        u = p * p + q * q
        if l.model == 1:
            d = clamp(u, l.vlo ** 2, l.vhi ** 2)
        elif l.model == 2:
            d = l.vn ** 2
        else:
            d = l.vn * clamp(m, l.vlo, l.vhi)
        return 10 ** 9 * (l.p * p + l.q * q), 10 ** 9 * (l.p * q - l.q * p), d

    def slopes(self, l, p, q, m):
        """{(row, column): slope} with rows and columns 0, 1 for the parts and 2 for the magnitude."""
        ir, ii, d = self.quotients(l, p, q, m)
        jr, ji = near(ir << 20, d), near(ii << 20, d)
        g, b = near_at(l.p * 10 ** 9, d), near_at(l.q * 10 ** 9, d)
        s = {(0, 0): g, (0, 1): b, (1, 0): -b, (1, 1): g}
        if l.model == 1:
            u = p * p + q * q
            if l.vlo ** 2 <= u <= l.vhi ** 2:
                s[0, 0] -= near_at(2 * p * jr, d << 20)
                s[0, 1] -= near_at(2 * q * jr, d << 20)
                s[1, 0] -= near_at(2 * p * ji, d << 20)
                s[1, 1] -= near_at(2 * q * ji, d << 20)
        else:
            c = clamp(m, l.vlo, l.vhi)
            inside = l.vlo <= m <= l.vhi
            s[0, 2] = -near_at(jr, c << 20) if inside else 0
            s[1, 2] = -near_at(ji, c << 20) if inside else 0
            s[2, 0], s[2, 1], s[2, 2] = -near_at(2 * p, l.vn), -near_at(2 * q, l.vn), near_at(2 * m, l.vn)
        return s

    def places(self, l, r, c):
        """Where a slope of a load stands, with its sign."""
        ends = [(l.f, 1), (l.s, -1)]
        rows = [(l.mag, 1)] if r == 2 else [(2 * n + r, s) for n, s in ends if n is not None]
        cols = [(l.mag, 1)] if c == 2 else [(2 * n + c, s) for n, s in ends if n is not None]
        return [(a, b, s * t) for a, s in rows for b, t in cols]

    # ------------------------------------------------------------ procedure

    def residual(self, x):
        out = list(self.constants)
        for r, row in enumerate(self.rows):
            out[r] += sum(near(a * x[c], B40) for c, a in row.items())
        for l in self.loads:
            if l.model == 2:
                continue
            p, q, m = self.state(l, x)
            nr, ni, d = self.quotients(l, p, q, m)
            cur = (near(nr, d), near(ni, d))
            for n, s in ((l.f, 1), (l.s, -1)):
                if n is not None:
                    out[2 * n] += s * cur[0]
                    out[2 * n + 1] += s * cur[1]
            if l.model == 5:
                out[l.mag] += near(m * m - (p * p + q * q), l.vn)
        return out

    def start_matrix(self):
        a = [dict(r) for r in self.rows]
        for l in self.loads:
            if l.model == 2:
                continue
            g, b = near_at(l.p * 10 ** 9, l.vn ** 2), near_at(l.q * 10 ** 9, l.vn ** 2)
            for (r, c), v in {(0, 0): g, (0, 1): b, (1, 0): -b, (1, 1): g}.items():
                for i, j, s in self.places(l, r, c):
                    a[i][j] = a[i].get(j, 0) + s * v
            if l.model == 5:
                a[l.mag][l.mag] = a[l.mag].get(l.mag, 0) + (1 << 41)
        return a

    def jacobian(self, x):
        a = [dict(r) for r in self.rows]
        for l in self.loads:
            if l.model == 2:
                continue
            for (r, c), v in self.slopes(l, *self.state(l, x)).items():
                for i, j, s in self.places(l, r, c):
                    a[i][j] = a[i].get(j, 0) + s * v
        return a
