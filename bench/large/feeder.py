"""feeder.py SEED BUSES: writes the script of a radial feeder with so many buses of 12.47 kV, in the profile of
docs/SCRIPT.md. Python 3.11, nothing else. The same SEED and BUSES give the same bytes.

A substation of 115 kV has a feeder for each 2,500 buses. A feeder has a trunk of three phases, branches of three, two
and one phase, and a regulator bank at its head, from 300 buses on also at each third of its trunk. A bus may have a
service transformer to 240 V with up to two houses behind their service lines, one of three phases to 480 V, or a load
of its own; loads are of all models, in wye and in delta. There are banks, one of them with a control, cables with
charging, switches and lines without any impedance. Lengths are such that by an estimate no phase drops by more than 5%
between two regulators, and regulators begin at taps by that estimate.

A bus counts with what it serves: some 7 complex unknowns, nodes and phases of branches, or 14 real ones. So 20, 40 and
60 buses fit the 480 of `solve`; 1,000, 5,000 and 10,000 buses of the first seed are 13,991, 72,980 and 145,873 real
unknowns, in scripts of 0.4, 2 and 4 MB.
"""
import random
import sys

CODES = (
    'New Linecode.open nphases=3 units=mi rmatrix=(0.3465 | 0.1560 0.3375 | 0.1580 0.1535 0.3414)'
    ' xmatrix=(1.0179 | 0.5017 1.0478 | 0.4236 0.3849 1.0348) cmatrix=(15.1 | -4.9 16 | -1.9 -3.1 14.4)',
    'New Linecode.cable nphases=3 units=mi rmatrix=(0.7982 | 0.3192 0.7891 | 0.2849 0.3192 0.7982)'
    ' xmatrix=(0.4463 | 0.0328 0.4041 | -0.0143 0.0328 0.4463) cmatrix=(257 | 0 257 | 0 0 257)',
    'New Linecode.two nphases=2 units=mi rmatrix=(1.3238 | 0.2066 1.3294) xmatrix=(1.3569 | 0.4591 1.3471)',
    'New Linecode.one nphases=1 units=mi rmatrix=(1.3292) xmatrix=(1.3475)',
    'New Linecode.service nphases=1 units=kft rmatrix=(0.35) xmatrix=(0.08)')
OHMS = {3: 0.6, 2: 1.8, 1: 1.8}         # of a mile and a phase, at the power factor of the loads, for the estimate
VOLTS, FEET = 7199.6, 5280
MOST_DROP = 0.05 * VOLTS
OUTPUT = 1.02                           # what regulators are to give, in per unit


class Bus:
    """A bus of 12.47 kV, the one above it, and the power behind it in kilowatts by phase."""

    def __init__(self, name, above, phases, span, kind):
        self.name, self.above, self.phases, self.span, self.kind = name, above, phases, span, kind
        self.kw = {p: 0.0 for p in phases}
        self.lines = []                 # what is connected here
        self.is_regulated = False

    def nodes(self):
        return '' if len(self.phases) == 3 else ''.join('.%d' % p for p in self.phases)


class Feeder:
    """A feeder of the substation: its buses, each behind the one above it."""

    def __init__(self, rng, number, count):
        self.rng, self.number = rng, number
        self.buses = [Bus('f%d-0' % number, None, (1, 2, 3), 0.0, 'open')]
        trunk = max(3, count * 15 // 100)
        last = self.buses[0]
        for k in range(1, trunk):
            last = self.add(last, (1, 2, 3))
            last.is_regulated = count >= 300 and k in (trunk // 3, 2 * trunk // 3)
        while len(self.buses) < count:
            self.add_branch(count)
        for bus in self.buses[1:]:
            self.serve(bus)
        self.banks(count)
        for bus in reversed(self.buses[1:]):
            for p in bus.phases:
                bus.above.kw[p] += bus.kw[p]

    def add(self, above, phases):
        kind = {2: 'two', 1: 'one'}.get(len(phases)) or self.rng.choice(['open'] * 5 + ['cable'] + ['switch'] * 2)
        if kind == 'switch' and self.rng.random() < 0.5:
            kind = 'open'
        bus = Bus('f%d-%d' % (self.number, len(self.buses)), above, phases, self.rng.uniform(0.4, 1.6), kind)
        self.buses.append(bus)
        return bus

    def add_branch(self, count):
        """A branch of up to a dozen buses, of which one in five forks off."""
        threes = [it for it in self.buses if len(it.phases) == 3]
        last = self.rng.choice(threes)
        width = self.rng.choice([3, 3, 2, 1, 1, 1, 1, 1])
        start = self.rng.randrange(3)
        phases = tuple(sorted((start + k) % 3 + 1 for k in range(width)))
        chain = []
        for _ in range(min(self.rng.randint(1, 12), count - len(self.buses))):
            last = self.add(self.rng.choice(chain) if chain and self.rng.random() < 0.2 else last, phases)
            chain.append(last)

    # ------------------------------------------------------------ loads

    def serve(self, bus):
        choice = self.rng.random()
        if choice < 0.15:
            return
        if len(bus.phases) < 3 or choice < 0.5:
            self.houses(bus, self.rng.choice(bus.phases))
        elif choice < 0.7:
            self.hall(bus)
        else:
            conn, kw = self.rng.choice(['wye', 'wye', 'delta']), self.rng.uniform(5, 20)
            self.load(bus, bus.name, 3, conn, '12.47', kw, bus.phases)

    def houses(self, bus, p):
        """A service transformer to 240 V with one or two houses; one in six has a load at its own terminals."""
        at, count = bus.name + '-s', self.rng.choice([0, 1, 1, 2, 2, 2])
        bus.lines.append('New Transformer.%s phases=1 buses=(%s.%d %s.%d) kvs=(7.2 0.24) kvas=(%d %d) xhl=2'
                         ' %%rs=(0.6 0.6)' % ((at, bus.name, p, at, p) + (self.rng.choice([10, 15, 25]),) * 2))
        for k in range(count):
            house = '%s%d' % (at, k)
            bus.lines.append('New Line.%s bus1=%s.%d bus2=%s.%d phases=1 linecode=service length=%d units=ft'
                             % (house, at, p, house, p, self.rng.randint(40, 150)))
            self.load(bus, '%s.%d' % (house, p), 1, 'wye', '0.24', self.rng.uniform(0.5, 3), (p,))
        if not count:
            self.load(bus, '%s.%d' % (at, p), 1, 'wye', '0.24', self.rng.uniform(2, 6), (p,))

    def hall(self, bus):
        """A service transformer of three phases to 480 V."""
        at = bus.name + '-h'
        bus.lines.append('New Transformer.%s phases=3 buses=(%s %s) conns=(%s wye) kvs=(12.47 0.48) kvas=(75 75) xhl=4'
                         ' %%rs=(0.6 0.6)' % (at, bus.name, at, self.rng.choice(['wye', 'delta'])))
        conn, kw = self.rng.choice(['wye', 'wye', 'delta']), self.rng.uniform(5, 25)
        self.load(bus, at, 3, conn, '0.48', kw, bus.phases)

    def load(self, bus, at, phases, conn, kv, kw, shares):
        model = self.rng.choice([1, 1, 1, 1, 1, 1, 2, 2, 5, 8])
        parts = ' zipv=(0.4 0.25 0.35 0.6 0.15 0.25 0)' if model == 8 else ''
        bus.lines.append('New Load.%s bus1=%s phases=%d conn=%s kv=%s kw=%.3f pf=%s model=%d%s vminpu=0.8 vmaxpu=1.2'
                         % (at.replace('.', '-') + '-l', at, phases, conn, kv, kw,
                            self.rng.choice(['0.85', '0.9', '0.95', '0.98']), model, parts))
        for p in shares:
            bus.kw[p] += kw / len(shares)

    def banks(self, count):
        """A bank for each 150 buses, one in four of them of one phase; the first has a control."""
        threes = [it for it in self.buses[1:] if len(it.phases) == 3]
        for k in range(1 + count // 150):
            bus, name = self.rng.choice(threes), 'f%d-c%d' % (self.number, k)
            if k % 4 == 3:
                bus.lines.append('New Capacitor.%s bus1=%s.%d phases=1 kvar=50 kv=7.2'
                                 % (name, bus.name, k // 4 % 3 + 1))
                continue
            kvar, conn = self.rng.choice([75, 150, 300]), self.rng.choice(['wye', 'wye', 'delta'])
            bus.lines.append('New Capacitor.%s bus1=%s phases=3 kvar=%d kv=12.47 conn=%s'
                             % (name, bus.name, kvar, conn))
            if k == 0:
                bus.lines.append('New CapControl.%s element=line.%s terminal=2 capacitor=%s type=voltage ptratio=60'
                                 ' onsetting=112 offsetting=130' % (name, bus.name, name))

    # ------------------------------------------------------------ lengths, taps and text

    def drops(self):
        """The estimated volts that each phase drops at spans of one mile since the regulators above, at each bus."""
        out = {self.buses[0].name: {p: 0.0 for p in (1, 2, 3)}}
        for bus in self.buses[1:]:
            base = out[bus.above.name]
            if bus.above.is_regulated:
                base = {p: 0.0 for p in base}
            ohms = 0.0 if bus.kind == 'switch' else OHMS[len(bus.phases)] * bus.span
            out[bus.name] = {p: base[p] + ohms * bus.kw[p] * 1000 / VOLTS for p in bus.phases}
        return out

    def text(self):
        drops = self.drops()
        miles = MOST_DROP / max(max(it.values()) for it in drops.values())
        out = self.regulators('sec', self.buses[0].name, {p: 0.025 * VOLTS for p in (1, 2, 3)}, 1.0)
        for bus in self.buses[1:]:
            out += self.line(bus, miles)
            if bus.is_regulated:
                dropped = {p: v * miles for p, v in drops[bus.name].items()}
                out += self.regulators(bus.name, bus.name + '-r', dropped, OUTPUT)
            out += bus.lines
        return out

    def line(self, bus, miles):
        above = bus.above.name + ('-r' if bus.above.is_regulated else '')
        head = 'New Line.%s bus1=%s%s bus2=%s%s phases=%d ' % (
            bus.name, above, bus.nodes(), bus.name, bus.nodes(), len(bus.phases))
        if bus.kind == 'switch':
            return [head + self.rng.choice(['switch=y', 'r1=0 x1=0 r0=0 x0=0'])]
        return [head + 'linecode=%s length=%.1f units=ft' % (bus.kind, max(10.0, bus.span * miles * FEET))]

    def regulators(self, at, behind, dropped, before):
        out = []
        for p in (1, 2, 3):
            steps = min(max(round((OUTPUT / (before - dropped[p] / VOLTS) - 1) / 0.00625), -16), 16)
            out.append('New Transformer.%s-%d phases=1 buses=(%s.%d %s.%d) kvs=(7.2 7.2) kvas=(5000 5000) xhl=0.01'
                       ' %%loadloss=0.01 taps=(1 %.5f)' % (behind, p, at, p, behind, p, 1 + 0.00625 * steps))
            out.append('New RegControl.%s-%d transformer=%s-%d winding=2 vreg=122.4 band=3 ptratio=60 ctprim=600'
                       % (behind, p, behind, p))
        return out


def script(seed, buses):
    rng = random.Random(seed)
    count = max(1, -(-buses // 2500))
    feeders = [Feeder(rng, k, buses // count + (k < buses % count)) for k in range(count)]
    kva = max(1000, round(1.5 * sum(sum(it.buses[0].kw.values()) for it in feeders)))
    out = ['! bench/large/feeder.py %d %d' % (seed, buses), 'Clear']
    out += ('New Circuit.large basekv=115 mvasc3=2000 mvasc1=2100',) + CODES
    out.append('New Transformer.sub phases=3 buses=(sourcebus sec) conns=(delta wye) kvs=(115 12.47) kvas=(%d %d) xhl=8'
               ' %%rs=(0.5 0.5)' % (kva, kva))
    for feeder in feeders:
        out += feeder.text()
    return '\n'.join(out + ['Solve', ''])


if __name__ == '__main__':
    sys.stdout.write(script(int(sys.argv[1]), int(sys.argv[2])))
