"""A certificate: mismatches, the bound and the radii of a state, and its records. Whole numbers alone."""
from math import isqrt
from controls import micro, root_up
from elements import B40, P120, ceil, ceil_at, clamp
from procedure import Fault


def mismatches(net, x):
    lo, hi = list(net.constants), list(net.constants)
    for r, c, num, den in net.terms:
        s = 1 if num >= 0 else -1
        n = abs(num) << 40
        f0, f1 = n // den, ceil(n, den)
        a, b = f0 * x[c], f1 * x[c]
        a, b = min(a, b) // B40, ceil(max(a, b), B40)
        if s < 0:
            a, b = -b, -a
        lo[r] += a
        hi[r] += b
    for l in net.loads:
        if l.model == 2:
            continue
        p, q, m = net.state(l, x)
        nr, ni, d = net.quotients(l, p, q, m)
        for k, v in ((0, nr), (1, ni)):
            a, b = v // d, ceil(v, d)
            for n, s in ((l.f, 1), (l.s, -1)):
                if n is not None:
                    lo[2 * n + k] += a if s > 0 else -b
                    hi[2 * n + k] += b if s > 0 else -a
        if l.model == 5:
            v = m * m - (p * p + q * q)
            lo[l.mag] += v // l.vn
            hi[l.mag] += ceil(v, l.vn)
    return [max(abs(a), abs(b)) for a, b in zip(lo, hi)]


def up(x, y):
    return ceil(x * y, B40)


CASES = {}       # which of inside, outside and straddling the loads of a run were: for the choice of cases


def slope_radii(net, l, x, half):
    p, q, m = net.state(l, x)
    rp = rq = 0
    for n in (l.f, l.s):
        if n is not None:
            rp += half[2 * n]
            rq += half[2 * n + 1]
    g_ = abs(l.p) + abs(l.q)
    a_, s_ = max(abs(p), abs(q)), max(rp, rq)
    out = {}
    if l.model == 1:
        u = p * p + q * q
        lo, hi = l.vlo ** 2, l.vhi ** 2
        c = clamp(u, lo, hi)
        e = (2 * abs(p) + rp) * rp + (2 * abs(q) + rq) * rq
        n = max(lo, c - e)
        g, y = ceil_at(g_ * 10 ** 9, c), ceil_at(e, n)
        if u - e >= lo and u + e <= hi:
            kind = 'inside'
            v = up(g, y + ceil_at(a_ * s_, n) + up(2 * ceil_at(a_ * a_, c), y))
        elif u + e <= lo or u - e >= hi:
            kind = 'below' if u + e <= lo else 'above'
            v = 0
        else:
            kind = 'straddles %s from %s' % ('low' if u - e < lo else 'high',
                                             'within' if lo <= u <= hi else 'outside')
            v = up(g, y + ceil_at(a_ * (2 * a_ + s_), n))
        for r in (0, 1):
            for k in (0, 1):
                out[r, k] = v
    else:
        rm = half[l.mag]
        c = clamp(m, l.vlo, l.vhi)
        n = max(l.vlo, c - rm)
        g, y = ceil_at(g_ * 10 ** 9, l.vn * c), ceil_at(rm, n)
        if m - rm >= l.vlo and m + rm <= l.vhi:
            kind, v, t = 'inside', up(g, y), up(g, up(ceil_at(a_, c), y))
        elif m + rm <= l.vlo or m - rm >= l.vhi:
            kind, v, t = 'below' if m + rm <= l.vlo else 'above', 0, 0
        else:
            kind = 'straddles %s from %s' % ('low' if m - rm < l.vlo else 'high',
                                             'within' if l.vlo <= m <= l.vhi else 'outside')
            v, t = up(g, y), up(g, ceil_at(a_, n))
        for r in (0, 1):
            for k in (0, 1):
                out[r, k] = v
            out[r, 2] = t
        out[2, 0], out[2, 1], out[2, 2] = ceil_at(rp, l.vn), ceil_at(rq, l.vn), ceil_at(rm, l.vn)
    CASES.setdefault('model %d %s' % (l.model, kind), 0)
    CASES['model %d %s' % (l.model, kind)] += 1
    return out


def radii_of_slopes(net, x, half):
    """How far each entry of the Jacobian may be off within the box, as columns {row: radius}."""
    columns = [{} for _ in range(net.n)]

    def put(i, j, v):
        columns[j][i] = columns[j].get(i, 0) + v
    for r, c, _, _ in net.terms:
        put(r, c, 4)
    for l in net.loads:
        if l.model != 2:
            for (r, c), v in slope_radii(net, l, x, half).items():
                for i, j, _ in net.places(l, r, c):
                    put(i, j, v + 4)
    return columns


class Summing:
    """A sum that has no value once a summand or a partial sum passes the greatest size."""

    def __init__(self):
        self.value, self.is_past = 0, False

    def add(self, v):
        self.value += v
        self.is_past |= abs(v) > P120 or abs(self.value) > P120


def bound_of(i, row, jacobian, off, w):
    """The bound of an unknown in units of 2^-40, or None where it is past all numbers."""
    total, is_past = Summing(), False
    for j, (slopes, radii) in enumerate(zip(jacobian, off)):
        s, t = Summing(), Summing()
        for l in sorted(slopes):
            if row.get(l):
                s.add(row[l] * slopes[l])
        for l in sorted(radii):
            if row.get(l):
                t.add(abs(row[l]) * radii[l])
        d = abs(((1 << 80) if i == j else 0) - s.value)
        is_past |= s.is_past or t.is_past or d > P120 or d + t.value > P120
        total.add(w[j] * (d + t.value))
    return None if is_past or total.is_past else ceil(total.value, w[i] << 40)


def bounds_of(net, x, inverse, half, w):
    jacobian = [{} for _ in range(net.n)]
    for l, row in enumerate(net.jacobian(x)):
        for j, v in row.items():
            if v:
                jacobian[j][l] = v
    off = radii_of_slopes(net, x, half)
    return [bound_of(i, inverse[i], jacobian, off, w) for i in range(net.n)]


def judged(bounds, inverse, w, mismatch):
    """The radii by these mismatches; or the first unknown whose bound reaches one, with it, `all` where it has none."""
    b_i = [ceil(sum(abs(c) * 2 * mismatch[l] for l, c in row.items()) << 20, v) for row, v in zip(inverse, w)]
    assert all(v <= P120 for v in b_i)
    b = max(b_i)
    bounds = [None if v * b > P120 else k for k, v in zip(bounds, w)]
    for i, k in enumerate(bounds):
        if k is None or k >= B40:
            return None, (i, 'all' if k is None else str(k))
    radii = [ceil(v * b, (1 << 20) * (B40 - max(bounds))) for v in w]
    wide = [i for i, r in enumerate(radii) if r > B40]
    return (None, (wide[0], 'all')) if wide else (radii, None)


def record(kind, name, *numbers):
    """A record whose numbers are micro-units."""
    return ','.join([kind, name] + [micro(v) for v in numbers])


class Certified:
    """A state with its certificate."""

    def __init__(self, net, x, inverse):
        self.net, self.x, self.inverse = net, x, inverse
        self.weights, self.mismatch = net.weights(x), mismatches(net, x)
        self.test_mismatches()
        self.boxes = [0 if net.kind(k) == 'branch' else ceil(w, 200) for k, w in enumerate(self.weights)]
        self.bounds = bounds_of(net, x, inverse, self.boxes, self.weights)
        self.radii, reached = self.judged(self.mismatch)
        if reached:
            raise self.refused(*reached)
        self.bound = max(self.bounds)

    def test_mismatches(self):
        for k, e in enumerate(self.mismatch):
            if e > 1000:
                raise Fault(9, 'loose', self.net.name(k), micro(e))

    def judged(self, mismatch):
        return judged(self.bounds, self.inverse, self.weights, mismatch)

    def refused(self, i, bound):
        """No certificate; what would have been claimed has radii 0."""
        fault = Fault(10, 'not certified', self.net.name(i), bound)
        self.radii = [0] * self.net.n
        fault.tried = self
        return fault

    def sizes(self, k):
        """The least and the greatest size of complex unknown k within the radii, rounded down and up."""
        low = high = 0
        for i in (2 * k, 2 * k + 1):
            ends = self.x[i] - self.radii[i], self.x[i] + self.radii[i]
            squares = [end * end for end in ends]
            low += 0 if ends[0] <= 0 <= ends[1] else min(squares)
            high += max(squares)
        assert self.radii[2 * k] == self.radii[2 * k + 1]
        return isqrt(low), root_up(high)

    def block(self, number, hour, turn):
        """The lines of a certificate's block."""
        n = self.net.n
        out = ['solution %d %d %d %d' % (number, hour, turn, n)]
        out += ['x %d %d %d %d' % (i, self.x[i], self.radii[i], self.mismatch[i]) for i in range(n)]
        for i in range(n):
            held = [(l, self.inverse[i][l]) for l in sorted(self.inverse[i]) if self.inverse[i][l]]
            out.append(' '.join(str(it) for it in ['c', i, len(held)] + [it for pair in held for it in pair]))
        return out

    def records(self, number, hour, turn):
        """The records of a round."""
        net, x, r, e, h = self.net, self.x, self.radii, self.mismatch, self.boxes
        out = ['solution,%d,%d,%d' % (number, hour, turn)]
        for k, node in enumerate(net.nodes):
            a, b = 2 * k, 2 * k + 1
            out.append(record('node', '%s.%d' % node, x[a], x[b], r[a], h[a], *self.sizes(k), e[a], e[b]))
        for k, (name, phase) in enumerate(net.branches, net.nn):
            a, b = 2 * k, 2 * k + 1
            out.append(record('branch', '%s,%d' % (name, phase), x[a], x[b], r[a], e[a], e[b]))
        for k, (name, phase) in enumerate(net.mags, 2 * (net.nn + net.nb)):
            out.append(record('magnitude', '%s,%d' % (name, phase), x[k], r[k], h[k], e[k]))
        return out
