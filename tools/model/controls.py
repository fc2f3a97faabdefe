"""Controls of regulators and banks: what they measure over a ball of states, what they want, and the timed queue.

An interval is a pair of whole ends, or None where it has none and holds every number. Whole numbers alone.
"""
from math import isqrt
from elements import B40, P120, line_nodes, terminals, u_of
from script import near, ONE

RAISE, HOLD, LOWER = 'raise', 'hold', 'lower'


# ---------------------------------------------------------------- intervals

def capped(low, high):
    return (low, high) if abs(low) <= P120 and abs(high) <= P120 else None


def total(*intervals):
    """The sum, term by term."""
    s = (0, 0)
    for a in intervals:
        if s is None or a is None:
            return None
        s = capped(s[0] + a[0], s[1] + a[1])
    return s


def minus(a):
    return None if a is None else (-a[1], -a[0])


def factor(n, d):
    """n / d in units of 2^-40, rounded outward; d > 0."""
    return (n << 40) // d, -((-n << 40) // d)


def products(a, b):
    p = [x * y for x in a for y in b]
    return min(p), max(p)


def times(a, f):
    if a is None or f is None:
        return None
    low, high = products(a, f)
    return capped(low // B40, -(-high // B40))


def area(a, b):
    return None if a is None or b is None else capped(*products(a, b))


def square(a):
    if a is None:
        return None
    s = (a[0] * a[0], a[1] * a[1])
    return capped(0 if a[0] <= 0 <= a[1] else min(s), max(s))


def root_up(n):
    r = isqrt(n)
    return r + (r * r < n)


# ---------------------------------------------------------------- the states of a ball

class Ball:
    """Intervals over the centre and the radii of a certified state."""

    def __init__(self, certified):
        self.x, self.r, self.net = certified.x, certified.radii, certified.net

    def part(self, place):
        return self.x[place] - self.r[place], self.x[place] + self.r[place]

    def phasor(self, k):
        return self.part(2 * k), self.part(2 * k + 1)

    def voltage(self, bus, number):
        return self.phasor(self.net.nodes.index((bus, number))) if number else ((0, 0), (0, 0))

    def current(self, element, phase):
        return self.phasor(self.net.nn + self.net.branches.index((element, phase)))


# ---------------------------------------------------------------- verdicts

class Undecided(Exception):
    def __init__(self, *fields):
        self.fields = fields


def micro(v):
    return '%s%d.%06d' % ('-' if v < 0 else '', abs(v) // 10 ** 6, abs(v) % 10 ** 6)


def nano(v):
    return '%s%d.%09d' % ('-' if v < 0 else '', abs(v) // ONE, abs(v) % ONE)


class Control:
    """One control: `sample` is an interval, `verdict` the direction and the steps at one value of it."""
    latest = None        # the direction of its latest act in this settle, in mode time in this Solve

    def __init__(self, key, e, circuit):
        self.name, self.e, self.circuit = '%s.%s' % key, e, circuit

    def decide(self, ball):
        s = self.sample(ball)
        if s is None:
            raise Undecided(self.name, *self.printed((self.least, P120), self.edge(self.least)))
        low, high = (self.verdict(v) for v in s)
        if low != high:
            raise Undecided(self.name, *self.printed(s, self.edge(s[0])))
        return low


class OfMagnitude:
    """The sample is that of the square of a magnitude."""
    least = 0

    def magnitude(self, re, im):
        return total(square(re), square(im))

    def below(self, s, edge):
        return edge > 0 and s < edge * edge

    def above(self, s, edge):
        return edge < 0 or s > edge * edge

    def printed(self, s, edge):
        high = P120 if s[1] == P120 and s[0] == 0 else root_up(s[1])
        return micro(isqrt(s[0])), micro(high), micro(edge)


class Regulator(OfMagnitude, Control):
    def __init__(self, key, e, circuit):
        super().__init__(key, e, circuit)
        self.t = circuit['transformer', e['transformer']]
        self.w = e['winding'] - 1
        t, w = self.t, self.w
        self.tapstep = (t['maxtap'][w] - t['mintap'][w]) // t['numtaps'][w]

    def nominal(self, w):
        return u_of(self.t['kvs'][w], self.t['phases'], self.t['conns'][w])

    def sample(self, ball):
        e, t = self.e, self.t
        k = e['ptphase']
        first, second = terminals(t)[self.w][k - 1]
        bus = t['buses'][self.w][0]
        v = [total(a, minus(b)) for a, b in zip(ball.voltage(bus, first), ball.voltage(bus, second))]
        i = ball.current('transformer.' + e['transformer'], k)
        if self.w == 0:
            a = factor(self.nominal(1) * t['at'][1], self.nominal(0) * t['at'][0])
            i = [minus(times(c, a)) for c in i]
        pt, r, x = factor(ONE, e['ptratio']), factor(e['r'], e['ctprim']), factor(e['x'], e['ctprim'])
        drop = (total(times(i[0], r), minus(times(i[1], x))), total(times(i[1], r), times(i[0], x)))
        return self.magnitude(*(total(times(c, pt), minus(d)) for c, d in zip(v, drop)))

    # the settings in microvolts: ends of the band, and the voltage with `n` steps up or down
    def end(self, sign):
        return near(2 * self.e['vreg'] + sign * self.e['band'], 2000)

    def moved(self, n):
        return near(self.e['vreg'] + 1000 * n * self.step(), 1000)

    def step(self):
        return max(1, self.tapstep * self.nominal(self.w) * ONE // (10 ** 5 * self.e['ptratio']))

    def room(self, up):
        t, w = self.t, self.w
        left = t['maxtap'][w] - t['at'][w] if up else t['at'][w] - t['mintap'][w]
        return max(0, left // self.tapstep)

    def allowed(self, n, up):
        return min(max(n, 1), self.e['maxtapchange'], self.room(up))

    def verdict(self, s):
        if self.below(s, self.end(-1)):
            # a magnitude is at most a whole number exactly where its root, rounded up, is
            return RAISE, self.allowed((self.moved(0) - root_up(s)) // self.step(), True)
        if self.above(s, self.end(1)):
            return LOWER, self.allowed((isqrt(s) - self.moved(0)) // self.step(), False)
        return HOLD, 0

    def edge(self, s):
        way, n = self.verdict(s)
        if way == RAISE:
            return min(self.end(-1), self.moved(-n)) if n >= 2 else self.end(-1)
        return self.end(1) if way == HOLD else self.moved(n + 1)

    def due(self, way, now, clock):
        return now + self.e['tapdelay' if self.latest == way else 'delay']

    def act(self, way, n, time, clock):
        signed = n if way == RAISE else -n
        self.t['at'][self.w] += signed * self.tapstep
        self.latest = way
        return signed, tap_text(self.t['at'][self.w])


def tap_text(v):
    return '%d.%05d' % (v // 10 ** 5, v % 10 ** 5)


class Bank(Control):
    """What a switched bank does; `edge_of` tells the direction that a sample past a setting has."""

    def __init__(self, key, e, circuit):
        super().__init__(key, e, circuit)
        self.bank = circuit['capacitor', e['capacitor']]
        self.line = circuit['line', e['element']]

    def terminal(self):
        e = self.e
        return line_nodes(self.line['bus%d' % e['terminal']], self.line['phases'])

    def current(self, ball, k):
        return ball.current('line.' + self.e['element'], k)

    def edge(self, s):
        return self.setting('offsetting' if self.bank['now'] else 'onsetting')

    def verdict(self, s):
        closed = self.bank['now']
        past = self.above if closed == self.opens_above else self.below
        return ((LOWER if closed else RAISE), 1) if past(s, self.edge(s)) else (HOLD, 0)

    def due(self, way, now, clock):
        if way == LOWER:
            return now + self.e['delayoff']
        opened = clock.get(self.e['capacitor'])
        return max(now + self.e['delay'], opened + self.e['deadtime']) if opened is not None else now + self.e['delay']

    def act(self, way, n, time, clock):
        self.bank['now'] = way == RAISE
        if way == LOWER:
            clock[self.e['capacitor']] = time
        return (1, 'closed') if way == RAISE else (-1, 'open')


class OfRatio(OfMagnitude, Bank):
    def setting(self, name):
        return near(self.e[name], 1000)

    def over(self, phasor, ratio):
        f = factor(ONE, self.e[ratio])
        return self.magnitude(*(times(p, f) for p in phasor))


class OfVoltage(OfRatio):
    opens_above = True

    def sample(self, ball):
        return self.over(ball.voltage(*self.terminal()[self.e['ptphase'] - 1]), 'ptratio')


class OfCurrent(OfRatio):
    opens_above = False

    def sample(self, ball):
        return self.over(self.current(ball, self.e['ctphase']), 'ctratio')


class OfKvar(Bank):
    """The sample is in 10^-15 kvar, a setting in 10^-9 kvar."""
    opens_above = False
    least = -P120

    def setting(self, name):
        return self.e[name]

    def below(self, s, edge):
        return s < edge * 10 ** 6

    def above(self, s, edge):
        return s > edge * 10 ** 6

    def sample(self, ball):
        s = (0, 0)
        for k, node in enumerate(self.terminal()):
            v, i = ball.voltage(*node), self.current(ball, k + 1)
            if self.e['terminal'] == 2:
                i = [minus(c) for c in i]
            s = total(s, total(area(v[1], i[0]), minus(area(v[0], i[1]))))
        return s

    def printed(self, s, edge):
        return nano(s[0] // 10 ** 6), nano(-(-s[1] // 10 ** 6)), nano(edge)


BANKS = {'voltage': OfVoltage, 'current': OfCurrent, 'kvar': OfKvar}


def controls_of(circuit):
    out = []
    for key, e in circuit.items():
        if key[0] == 'regcontrol':
            out.append(Regulator(key, e, circuit))
        elif key[0] == 'capcontrol':
            out.append(BANKS[e['type']](key, e, circuit))
    return out


# ---------------------------------------------------------------- the queue

class Limit(Exception):
    def __init__(self, acts):
        self.acts = acts


class Queue:
    """At most one entry for each control: its time, its number in the order of queueing, and its direction.

    In mode time it lives through the hours of a Solve: an entry acts once its time is reached, and its act has the
    hour's time. Else it begins anew in each hour, each entry is due, and its act has the entry's own time.
    """

    def __init__(self, is_timed, clock):
        self.is_timed, self.clock, self.entries, self.number = is_timed, clock, {}, 0

    def at(self, now):
        self.now, self.acts = now, 0
        return self

    def react(self, control, verdict):
        way, steps = verdict
        entry = self.entries.get(control)
        if entry and (steps == 0 or entry[2] != way):
            del self.entries[control]
            entry = None
        if entry is None and steps:
            self.entries[control] = (control.due(way, self.now, self.clock), self.number, way)
            self.number += 1

    def is_due(self):
        return any(not self.is_timed or time <= self.now for time, _, _ in self.entries.values())

    def nearest(self):
        """Takes out the entries of the least time, in the order of queueing, each with the time of its act."""
        least = min(time for time, _, _ in self.entries.values())
        found = [c for c, entry in self.ordered() if entry[0] == least]
        for c in found:
            del self.entries[c]
        return [(self.now if self.is_timed else least, c) for c in found]

    def ordered(self):
        return sorted(self.entries.items(), key=lambda it: it[1][:2])


def seconds(ms):
    return '%d.%03d' % (ms // 1000, ms % 1000)


def act_record(time, number, name, steps, after):
    """An act as a record of a report."""
    return 'act,%s,%s,%d,%s' % (seconds(time), name, steps, after)


def act_line(time, number, name, steps, after):
    """An act as a line of a certificate."""
    return 'act %d %d %d' % (time, number, steps)


def settle(controls, queue, limit, solve, text=act_record):
    """Solves, samples and acts until nothing is due. `solve(round)` gives a certified state, `text` prints an act.

    Gives the texts of each round, one after the other, and raises what ends it: Undecided, or Limit. Without controls
    to sample it is one solve.
    """
    while True:
        certified, records = solve(queue.acts)
        yield records
        ball = Ball(certified)
        verdicts = [c.decide(ball) for c in controls]
        for c, v in zip(controls, verdicts):
            queue.react(c, v)
        if not queue.is_due():
            return
        if queue.acts == limit:
            raise Limit(queue.acts)
        wanted = dict(zip(controls, verdicts))
        acts = []
        for time, c in queue.nearest():
            signed, after = c.act(*wanted[c], time, queue.clock)
            acts.append(text(time, controls.index(c), c.name, signed, after))
        yield acts
        queue.acts += 1


def hours(circuit, options):
    """The hours of a Solve, each with its time, its controls and its queue. A snapshot is hour 0 at time 0."""
    clock, is_timed = {}, options['controlmode'] == 'time'
    controls, queue = controls_of(circuit), Queue(is_timed, clock)
    for hour in range(1, options['number'] + 1) if options['mode'] == 'daily' else [0]:
        if not is_timed:
            controls, queue = controls_of(circuit), Queue(is_timed, clock)
        sampled = [] if options['controlmode'] == 'off' else controls
        yield hour, sampled, queue.at(3600000 * max(hour - 1, 0))


def positions(circuit):
    """The records behind the last round."""
    out = ['tap,%s,%s' % (c.name, tap_text(c.t['at'][c.w])) for c in controls_of(circuit) if isinstance(c, Regulator)]
    out += ['bank,capacitor.%s,%s' % (k[1], 'closed' if e['now'] else 'open')
            for k, e in circuit.items() if k[0] == 'capacitor']
    return out


def pending(queue):
    """The records of the entries that the last hour left."""
    return ['pending,%s,%s,%s' % (seconds(entry[0]), c.name, 'up' if entry[2] == RAISE else 'down')
            for c, entry in queue.ordered()]
