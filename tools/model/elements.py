"""Roundings, and the nodes and data of elements by the properties of the script. Whole numbers alone."""
from math import isqrt
from script import ONE, Refused, near, UNITS

R3, H3, T15 = 1732050807568877, 866025403784439, 10 ** 15
OMEGA = {60: 376991118430775, 50: 314159265358979}
B40, P120 = 1 << 40, 1 << 120


def ceil(n, d):
    return -((-n) // d)


def near_at(n, d):
    return near(n << 40, d)


def ceil_at(n, d):
    v = ceil(n << 40, d)
    assert abs(v) <= 1 << 100
    return v


def clamp(v, lo, hi):
    return min(max(v, lo), hi)


def u_of(kv, phases, conn):
    return near(kv * T15, R3) if phases == 3 and conn == 'wye' else kv


# ---------------------------------------------------------------- nodes

def three(numbers):
    if not numbers:
        return [1, 2, 3]
    if len(numbers) == 4:
        if numbers[3]:
            raise Refused('unsupported')
        return numbers[:3]
    if len(numbers) != 3:
        raise Refused('wrong count')
    return numbers


def pairs_of(bus, phases, conn, back=False):
    """The terminals (first, second) of a winding, bank or load as node numbers."""
    name, numbers = bus
    if phases == 3:
        n = three(numbers)
        if conn == 'wye':
            return [(n[k], 0) for k in range(3)]
        return [(n[k], n[(k - 1) % 3 if back else (k + 1) % 3]) for k in range(3)]
    if len(numbers) > 2:
        raise Refused('wrong count')
    if conn == 'wye':
        return [((numbers or [1])[0], numbers[1] if len(numbers) == 2 else 0)]
    if len(numbers) == 1:
        raise Refused('wrong count')
    return [tuple(numbers) if numbers else (1, 2)]


def terminals(e):
    """The terminals of both windings of a transformer."""
    higher = 0 if e['kvs'][0] >= e['kvs'][1] else 1
    mixed = e['phases'] == 3 and e['conns'][0] != e['conns'][1]
    return [pairs_of(e['buses'][w], e['phases'], e['conns'][w], mixed and w == higher) for w in (0, 1)]


def mention(bus, phases, conn):
    name, numbers = bus
    if phases == 3:
        return [(name, n) for n in three(numbers)]
    return [(name, n) for n in pairs_of(bus, phases, conn)[0]]


def line_nodes(bus, phases):
    name, numbers = bus
    if not numbers:
        numbers = [1, 2, 3][:phases]
    if len(numbers) != phases:
        raise Refused('wrong count')
    return [(name, n) for n in numbers]


def source_nodes(e):
    name, numbers = e['bus1']
    if e['phases'] == 3:
        return [(name, n) for n in three(numbers)]
    if len(numbers) > 2:
        raise Refused('wrong count')
    if len(numbers) == 2 and numbers[1]:
        raise Refused('unsupported')
    return [(name, (numbers or [1])[0])]


def line_ends(e):
    return [line_nodes(e['bus1'], e['phases']), line_nodes(e['bus2'], e['phases'])]


def mentions(cls, e):
    """The nodes that an element mentions, in order; ground may be among them."""
    if cls == 'vsource':
        return source_nodes(e)
    if cls == 'line':
        return sum(line_ends(e), [])
    if cls == 'transformer':
        return sum((mention(e['buses'][w], e['phases'], e['conns'][w]) for w in (0, 1)), [])
    return mention(e['bus1'], e['phases'], e['conn']) if cls in ('capacitor', 'load') else []


# ---------------------------------------------------------------- the data of elements

def source_volts(e):
    """The two parts of the voltage of each phase."""
    ph = e['phases']
    volts = near(e['basekv'] * e['pu'], ONE) if ph == 1 else near(e['basekv'] * e['pu'] * T15, ONE * R3)
    return [unit(e['angle'] - 120 * k, volts) for k in range(ph)]


def source_impedance(e):
    """The impedance of a source, as rows of (r, x, denominator) in ohm."""
    r1, x1, r0, x0 = source_ohms(e)
    ph = range(e['phases'])
    return [[(entry(r1, r0, k, m) * 1000 // 3, entry(x1, x0, k, m) * 1000 // 3, 10 ** 12) for m in ph] for k in ph]


def source_ohms(e):
    if e['ohms']:
        r1, x1 = e['r1'] or 0, e['x1'] or 0
        return r1, x1, r1 if e['r0'] is None else e['r0'], x1 if e['x0'] is None else e['x0']
    k3 = e['basekv'] ** 2 // e['mvasc3']
    k1 = e['basekv'] ** 2 // e['mvasc1']
    if max(k3, k1) > 10 ** 13:
        raise Refused('value out of range')
    x, y = e['x1r1'], e['x0r0']
    r1 = isqrt(k3 * k3 * 10 ** 8 // (10 ** 8 + x * x))
    x1 = x * r1 // 10 ** 4
    ok = lambda r: (2 * r1 + r) ** 2 * 10 ** 8 + (2 * x1 * 10 ** 4 + y * r) ** 2 <= 9 * k1 * k1 * 10 ** 8
    r0 = 0
    if ok(0):
        lo, hi = 0, 3 * k1 + 1
        while hi - lo > 1:
            mid = (lo + hi) // 2
            lo, hi = (mid, hi) if ok(mid) else (lo, mid)
        r0 = lo
    return r1, x1, r0, y * r0 // 10 ** 4


def entry(v1, v0, i, j):
    """Three times the sequence entry."""
    return 2 * v1 + v0 if i == j else v0 - v1


def unit_ratio(e):
    """The unit of a line's length over that of its code, as a fraction."""
    lu, cu = UNITS[e['units']], UNITS[e['codeunits'] or 'none']
    return (1, 1) if e['own'] or lu is None or cu is None else (lu, cu)


def symmetric(v1, v0, n):
    """The entries of a matrix in sequence form, each (numerator, denominator)."""
    v1 = v1 or 0
    v0 = v1 if v0 is None else v0
    return [[(entry(v1, v0, i, j), 3) for j in range(n)] for i in range(n)]


def whole_matrix(m, n):
    """The entries of a matrix as the script gives it; one that isn't given is zero."""
    if m is not None and len(m) != n:
        raise Refused('wrong count')
    return [[(m[i][j] if m else 0, 1) for j in range(n)] for i in range(n)]


def line_impedance(e):
    """The impedance of a line, as rows of (r, x, denominator) in ohm."""
    n, (lu, cu) = e['phases'], unit_ratio(e)
    if e['zform'] is None:
        raise Refused('no impedance')
    if e['zform'] == 'sequence':
        parts = symmetric(e['r1'], e['r0'], n), symmetric(e['x1'], e['x0'], n)
    else:
        parts = whole_matrix(e['rmatrix'], n), whole_matrix(e['xmatrix'], n)

    def total(part, i, j):
        v, d = part[i][j]
        return v * e['length'] * lu // (d * cu * 10 ** 6)
    return [[(total(parts[0], i, j), total(parts[1], i, j), 10 ** 12) for j in range(n)] for i in range(n)]


def line_charging(e, hertz):
    """Half the charging of a line, as rows of (susceptance, denominator) in siemens."""
    n, (lu, cu) = e['phases'], unit_ratio(e)
    if e['cform'] is None:
        c = whole_matrix(None, n)
    elif e['cform'] == 'sequence':
        c = symmetric(e['c1'], e['c0'], n)
    else:
        c = whole_matrix(e['cmatrix'], n)
    return [[(OMEGA[hertz] * (v * e['length'] * lu // (d * cu * 10 ** 12)), 2 * 10 ** 27) for v, d in row] for row in c]


def nominals(e):
    """The nominal voltages of the windings of a transformer."""
    return [u_of(e['kvs'][w], e['phases'], e['conns'][w]) for w in (0, 1)]


def ratio(e):
    """The ratio of a transformer at its taps, as a fraction."""
    u, (t1, t2) = nominals(e), e['at']
    return u[1] * t2, u[0] * t1


def leakage(e):
    """The impedance of a phase of a transformer at its taps, as (r, x, denominator) in ohm."""
    def at_unity(percent):
        return percent * nominals(e)[1] ** 2 * e['phases'] // (e['kvas'][0] * 10 ** 5)
    t2 = e['at'][1]
    return at_unity(e['rs'][0] + e['rs'][1]) * t2 ** 2, at_unity(e['xhl']) * t2 ** 2, 10 ** 22


def unit(angle, volts):
    """The two parts of `volts` turned by `angle` degrees."""
    a = angle % 360

    def part(a):
        a %= 360
        s = {0: 2, 30: 'h', 60: 1, 90: 0, 120: -1, 150: '-h', 180: -2, 210: '-h', 240: -1, 270: 0, 300: 1, 330: 'h'}[a]
        if s == 'h':
            return near(volts * H3, T15)
        if s == '-h':
            return near(-volts * H3, T15)
        return near(volts * s, 2)
    return part(a), part(a - 90)


def limits_of(load):
    """The voltages below and above which a load is an impedance."""
    vn = u_of(load['kv'], load['phases'], load['conn'])
    return near(load['vminpu'] * vn, ONE), near(load['vmaxpu'] * vn, ONE)


def phase_power(circuit, load, hour):
    """P and Q of a phase of a load at an hour; a snapshot is hour 0."""
    point, phases = ONE, load['phases']
    if hour and load['daily']:
        shape = circuit['loadshape', load['daily']]
        point = shape['mult'][:shape['npts']][(hour - 1) % shape['npts']]
    p = near(load['kw'] * point, 1000 * ONE * phases)
    if load['bykvar']:
        return p, near(load['kvar'] * point, 1000 * ONE * phases)
    d = load['pf'] ** 2
    q = isqrt(p * p * (10 ** 18 - d) // d)
    return p, -q if p * load['pf'] < 0 else q


def part_loads(load, p, q):
    """The part loads of a phase with this power, as models with P and Q: of model 8 the shares of models 2, 5 and 1."""
    if load['model'] != 8:
        return [(load['model'], p, q)]
    a, b = load['zipv'][:3], load['zipv'][3:]
    return [(model, near(p * s, ONE), near(q * t, ONE)) for model, s, t in zip((2, 5, 1), a, b)]
