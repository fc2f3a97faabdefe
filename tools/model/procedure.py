"""The procedure that seeks a state: the start, the steps, and two more by the Jacobian. Whole numbers alone."""
from controls import micro
from elements import B40
from script import ONE, near


class Fault(Exception):
    def __init__(self, status, *fields):
        self.status, self.fields = status, fields


def invert(net, a):
    """The elimination on rows {column: entry}; gives the inverse as rows {column: entry}."""
    n = net.n
    lim = 1 << 62
    left = [{c: v for c, v in r.items() if v} for r in a]
    bad = [c for r in left for c, v in r.items() if abs(v) > lim]
    if bad:
        raise Fault(6, 'no inverse', net.name(min(bad)), 'range')
    right = [{i: B40} for i in range(n)]
    used = [False] * n
    pivots = [None] * n
    half = B40 >> 1
    for col in range(n):
        best, row = 0, None
        for r in range(n):
            if not used[r]:
                v = abs(left[r].get(col, 0))
                if v > best:
                    best, row = v, r
        if best < 1 << 8:
            raise Fault(6, 'no inverse', net.name(col), 'pivot')
        used[row] = True
        pivots[col] = row
        pl, pr = left[row], right[row]
        piv = pl[col]
        for r in range(n):
            if r == row:
                continue
            e = left[r].get(col, 0)
            if not e:
                continue
            f = near(e << 40, piv) if piv > 0 else near(-e << 40, -piv)
            if abs(f) > lim:
                raise Fault(6, 'no inverse', net.name(col), 'range')
            for mine, other in ((left[r], pl), (right[r], pr)):
                for c, v in other.items():
                    t = f * v
                    t = (t + half) >> 40 if t >= 0 else -((half - t) >> 40)
                    if t:
                        w = mine.get(c, 0) - t
                        if w > lim or w < -lim:
                            if mine is left[r] and c == col:
                                continue
                            raise Fault(6, 'no inverse', net.name(col), 'range')
                        if w:
                            mine[c] = w
                        else:
                            mine.pop(c, None)
            left[r].pop(col, None)
    out = []
    for col in range(n):
        piv = left[pivots[col]][col]
        row = {}
        for c, v in right[pivots[col]].items():
            v = near(v << 40, piv) if piv > 0 else near(-v << 40, -piv)
            if abs(v) > 1 << 56:
                raise Fault(6, 'no inverse', net.name(col), 'range')
            if v:
                row[c] = v
        out.append(row)
    return out


def apply(c, v):
    return [near(sum(a * v[j] for j, a in row.items()), B40) for row in c]


class Procedure:
    def __init__(self, net, limit, tolerance):
        self.net, self.step = net, 0
        c0 = invert(net, net.start_matrix())
        self.x = [-v for v in apply(c0, net.constants)]
        self.seek(c0, limit, tolerance)
        c1 = invert(net, net.jacobian(self.x))
        self.move(c1)
        self.move(c1)
        self.inverse = c1

    def seek(self, c0, limit, tolerance):
        """From where it is, without magnitudes, to the first state that is still."""
        net = self.net
        for l in net.loads:
            if l.mag is not None:
                self.x[l.mag] = l.vn
        self.range()
        while True:
            change = self.move(c0)
            w = net.weights(self.x)
            bad = [k for k in range(net.n) if net.kind(k) != 'branch' and abs(change[k]) * ONE > tolerance * w[k]]
            if not bad:
                break
            if self.step == limit:
                raise Fault(8, 'not converged', net.name(bad[0]), str(self.step), micro(abs(change[bad[0]])))
        self.steps = self.step

    def range(self):
        for k, v in enumerate(self.x):
            if abs(v) > B40:
                raise Fault(7, 'out of range', self.net.name(k), str(self.step))

    def test_residual(self, res):
        for k, v in enumerate(res):
            if abs(v) > 1 << 58:
                raise Fault(7, 'out of range', self.net.name(k), str(self.step))

    def change(self, c, res):
        return apply(c, res)

    def move(self, c):
        res = self.net.residual(self.x)
        self.test_residual(res)
        change = self.change(c, res)
        self.x = [a - b for a, b in zip(self.x, change)]
        self.step += 1
        self.range()
        return change
