"""The script language and the circuit, as far as valid scripts need them. Whole numbers alone."""
import csv
import io
import re


class Refused(Exception):
    def __init__(self, cause, place=None):
        self.cause, self.place = cause, place


def near(n, d):
    """n / d to the nearest whole number, ties away from zero; d > 0."""
    return (2 * n + d) // (2 * d) if n >= 0 else -((2 * -n + d) // (2 * d))


SEP = ' \t,'
OPEN = {'(': ')', '[': ']', '{': '}', '"': '"', "'": "'"}
NUMBER = re.compile(r'([+-]?)([0-9]*)(?:(\.)([0-9]*))?(?:[eE]([+-]?[0-9]{1,2}))?\Z')


def number(text):
    m = NUMBER.match(text)
    if not m or not (m.group(2) or m.group(4)):
        raise Refused('bad number')
    whole, part = m.group(2), m.group(4) or ''
    digits = int((whole + part) or '0')
    shift = 9 + int(m.group(5) or 0) - len(part)
    v = digits * 10 ** shift if shift >= 0 else near(digits, 10 ** -shift)
    if v >= 10 ** 18:
        raise Refused('number too large')
    return -v if m.group(1) == '-' else v


def tokens(text):
    return [t for t in re.split('[ \t,]+', text) if t]


def postfix(text):
    stack = []
    for t in tokens(text):
        if t in ('+', '-', '*', '/'):
            if len(stack) < 2:
                raise Refused('bad postfix')
            b = stack.pop()
            a = stack.pop()
            if t == '+':
                v = a + b
            elif t == '-':
                v = a - b
            elif t == '*':
                v = near(a * b, 10 ** 9)
            else:
                if b == 0:
                    raise Refused('divide by zero')
                v = near(a * 10 ** 9, b) if b > 0 else near(-a * 10 ** 9, -b)
            if abs(v) >= 10 ** 18:
                raise Refused('number too large')
            stack.append(v)
        else:
            stack.append(number(t))
    if len(stack) != 1:
        raise Refused('bad postfix')
    return stack[0]


def cut(line):
    """The pairs (name, value, grouped) of a line; a word has the name ''... told apart by None."""
    out = []
    i, n = 0, len(line)

    def comment(i):
        return line[i] == '!' or line.startswith('//', i)

    def group(i):
        j = line.find(OPEN[line[i]], i + 1)
        if j < 0:
            raise Refused('unclosed group')
        return line[i + 1:j], j + 1

    while True:
        while i < n and line[i] in SEP:
            i += 1
        if i >= n or comment(i):
            return out
        if line[i] in OPEN:
            value, i = group(i)
            out.append((None, value, True))
            continue
        j = i
        while j < n and line[j] not in SEP and line[j] != '=' and not comment(j):
            j += 1
        first = line[i:j]
        k = j
        while k < n and line[k] in ' \t':
            k += 1
        if k < n and line[k] == '=':
            k += 1
            while k < n and line[k] in ' \t':
                k += 1
            if k < n and line[k] in OPEN:
                value, i = group(k)
                out.append((first, value, True))
            else:
                j = k
                while j < n and line[j] not in SEP and not comment(j):
                    j += 1
                out.append((first, line[k:j], False))
                i = j
        else:
            out.append((None, first, False))
            i = j


UNITS = {'mi': 16093440, 'kft': 3048000, 'km': 10000000, 'm': 10000, 'ft': 3048, 'in': 254, 'cm': 100, 'none': None}
ONE = 10 ** 9


def one(value, grouped):
    return postfix(value) if grouped else number(value)


def whole(value, grouped):
    v = one(value, grouped)
    if v % ONE:
        raise Refused('bad value')
    return v // ONE


def array(value, grouped):
    if not grouped:
        raise Refused('bad value')
    return [number(t) for t in tokens(value)]


def words(value, grouped):
    if not grouped:
        raise Refused('bad value')
    return tokens(value)


def word(value, grouped):
    if grouped:
        t = tokens(value)
        if len(t) != 1:
            raise Refused('bad value')
        value = t[0]
    if not value:
        raise Refused('bad value')
    return value


def matrix(value, grouped):
    if not grouped:
        raise Refused('bad value')
    rows = [[number(t) for t in tokens(r)] for r in value.split('|')]
    n = len(rows)
    if all(len(r) == n for r in rows):
        return rows
    if all(len(rows[i]) == i + 1 for i in range(n)):
        return [[rows[max(i, j)][min(i, j)] for j in range(n)] for i in range(n)]
    raise Refused('wrong count')


def truth(value, grouped):
    w = word(value, grouped).lower()
    if w in ('y', 'yes', 't', 'true'):
        return True
    if w in ('n', 'no', 'f', 'false'):
        return False
    raise Refused('bad value')


def bus(text):
    parts = text.split('.')
    numbers = parts[1:]
    bad = any(not re.match(r'[0-9]\Z', p) for p in numbers) or len(numbers) > 4
    if bad or not re.match(r'[A-Za-z0-9_%-]+\Z', parts[0]):
        raise Refused('bad value')
    return parts[0].lower(), [int(p) for p in parts[1:]]


def conn(text):
    c = {'wye': 'wye', 'ln': 'wye', 'delta': 'delta', 'll': 'delta'}.get(text.lower())
    if c is None:
        raise Refused('bad value')
    return c


def supported(holds):
    if not holds:
        raise Refused('unsupported')


def check(v, lo, hi):
    if not lo <= v <= hi:
        raise Refused('value out of range')
    return v


NEW = {
    'vsource': lambda: dict(bus1=('sourcebus', []), phases=3, basekv=115 * ONE, pu=ONE, angle=0, mvasc3=2000 * ONE,
                            mvasc1=2100 * ONE, x1r1=40000, x0r0=30000, r1=None, x1=None, r0=None, x0=None, ohms=False),
    'linecode': lambda: dict(phases=3, units='none', zform=None, cform=None, r1=None, x1=None, r0=None, x0=None,
                             rmatrix=None, xmatrix=None, cmatrix=None, c1=None, c0=None),
    'line': lambda: dict(bus1=None, bus2=None, phases=3, length=ONE, units='none', codeunits=None, own=True, zform=None,
                         cform=None, r1=None, x1=None, r0=None, x0=None, rmatrix=None, xmatrix=None, cmatrix=None,
                         c1=None, c0=None),
    'transformer': lambda: dict(phases=3, wdg=1, xhl=7 * ONE, buses=[None, None], conns=['wye', 'wye'],
                                kvs=[12470000000, 12470000000], kvas=[1000 * ONE] * 2, rs=[200000000] * 2,
                                taps=[100000] * 2, at=[100000] * 2, mintap=[90000] * 2, maxtap=[110000] * 2,
                                numtaps=[32] * 2),
    'capacitor': lambda: dict(bus1=None, phases=3, kvar=1200 * ONE, kv=12470000000, conn='wye', closed=True,
                              now=True),
    'load': lambda: dict(bus1=None, phases=3, kv=12470000000, kw=10 * ONE, pf=880000000, kvar=None, bykvar=False,
                         model=1, zipv=None, conn='wye', vminpu=950000000, vmaxpu=1050000000, daily=None),
    'regcontrol': lambda: dict(transformer=None, winding=1, vreg=120 * ONE, band=3 * ONE, ptratio=60 * ONE,
                               ctprim=300 * ONE, r=0, x=0, delay=15000, tapdelay=2000, maxtapchange=16, ptphase=1),
    'capcontrol': lambda: dict(element=None, terminal=1, capacitor=None, type='current', ptratio=60 * ONE,
                               ctratio=60 * ONE, onsetting=300 * ONE, offsetting=200 * ONE, delay=15000,
                               delayoff=15000, deadtime=300000, ptphase=1, ctphase=1),
    'loadshape': lambda: dict(npts=0, mult=[]),
}
Z = ('r1', 'x1', 'r0', 'x0')


def set_line_data(e, name, value, grouped):
    if name in Z:
        e[name] = one(value, grouped)
        e['zform'] = 'sequence'
    elif name in ('rmatrix', 'xmatrix'):
        e[name] = matrix(value, grouped)
        e['zform'] = 'matrix'
    elif name in ('c1', 'c0'):
        e[name] = one(value, grouped)
        e['cform'] = 'sequence'
        return True
    elif name == 'cmatrix':
        e[name] = matrix(value, grouped)
        e['cform'] = 'matrix'
        return True
    else:
        return False
    e['own'] = True
    return True


LINE_IGNORED = ('normamps', 'emergamps', 'faultrate', 'pctperm', 'repair')


WITH_FREQUENCY = ('vsource', 'linecode', 'line', 'transformer', 'capacitor', 'load')


def set_pair(circuit, cls, e, name, value, grouped):
    name = name.lower()
    check_range(cls, name, value, grouped)
    if name == 'basefreq' and cls in WITH_FREQUENCY:
        e['basefreq'] = one(value, grouped)
        return
    if cls == 'vsource':
        if name == 'bus1':
            e['bus1'] = bus(word(value, grouped))
        elif name == 'phases':
            e['phases'] = whole(value, grouped)
        elif name == 'angle':
            a = one(value, grouped)
            if a % (30 * ONE):
                raise Refused('unsupported')
            e['angle'] = a // ONE
        elif name in ('basekv', 'pu'):
            e[name] = one(value, grouped)
        elif name in ('mvasc3', 'mvasc1'):
            e[name] = one(value, grouped)
            e['ohms'] = False
        elif name in ('x1r1', 'x0r0'):
            e[name] = near(one(value, grouped), 10 ** 5)
        elif name in Z:
            e[name] = one(value, grouped)
            e['ohms'] = True
        else:
            raise Refused('unknown property')
    elif cls == 'linecode':
        if name == 'nphases':
            e['phases'] = whole(value, grouped)
        elif name == 'units':
            e['units'] = word(value, grouped).lower()
        elif name in LINE_IGNORED:
            pass
        elif not set_line_data(e, name, value, grouped):
            raise Refused('unknown property')
    elif cls == 'line':
        if name in ('bus1', 'bus2'):
            e[name] = bus(word(value, grouped))
        elif name == 'phases':
            e['phases'] = whole(value, grouped)
        elif name == 'length':
            e['length'] = one(value, grouped)
        elif name == 'units':
            e['units'] = word(value, grouped).lower()
            if e['units'] not in UNITS:
                raise Refused('bad value')
        elif name == 'switch':
            if truth(value, grouped):
                e.update(r1=ONE, x1=ONE, r0=ONE, x0=ONE, c1=1100000000, c0=ONE, length=1000000, units='none',
                         zform='sequence', cform='sequence', own=True)
        elif name == 'linecode':
            code = circuit.get(('linecode', word(value, grouped).lower()))
            if code is None:
                raise Refused('unknown name')
            for k in ('phases', 'zform', 'cform', 'rmatrix', 'xmatrix', 'cmatrix', 'c1', 'c0') + Z:
                e[k] = code[k]
            e['codeunits'] = code['units']
            e['own'] = False
        elif name in LINE_IGNORED:
            pass
        elif not set_line_data(e, name, value, grouped):
            raise Refused('unknown property')
    elif cls == 'transformer':
        w = e['wdg'] - 1
        if name == 'phases':
            e['phases'] = whole(value, grouped)
        elif name == 'windings':
            if one(value, grouped) != 2 * ONE:
                raise Refused('unsupported')
        elif name == 'wdg':
            e['wdg'] = whole(value, grouped)
        elif name == 'bus':
            e['buses'][w] = bus(word(value, grouped))
        elif name == 'conn':
            e['conns'][w] = conn(word(value, grouped))
        elif name == 'kv':
            e['kvs'][w] = one(value, grouped)
        elif name == 'kva':
            v = one(value, grouped)
            e['kvas'] = [v, v] if w == 0 else [e['kvas'][0], v]
        elif name == '%r':
            e['rs'][w] = one(value, grouped)
        elif name == 'tap':
            e['taps'][w] = e['at'][w] = near(one(value, grouped), 10 ** 4)
        elif name in ('mintap', 'maxtap'):
            e[name][w] = near(one(value, grouped), 10 ** 4)
        elif name == 'numtaps':
            e[name][w] = whole(value, grouped)
        elif name == 'xhl':
            e['xhl'] = one(value, grouped)
        elif name == '%loadloss':
            e['rs'] = [near(one(value, grouped), 2)] * 2
        elif name == 'buses':
            e['buses'] = [bus(t) for t in words(value, grouped)]
        elif name == 'conns':
            e['conns'] = [conn(t) for t in words(value, grouped)]
        elif name in ('kvs', 'kvas'):
            e[name] = array(value, grouped)
        elif name == '%rs':
            e['rs'] = array(value, grouped)
        elif name == 'taps':
            e['taps'] = [near(v, 10 ** 4) for v in array(value, grouped)]
            e['at'] = list(e['taps'])
        elif name == 'leadlag':
            supported(word(value, grouped).lower() in ('lag', 'ansi'))
        elif name in ('%noloadloss', '%imag'):
            supported(one(value, grouped) == 0)
        elif name in ('bank', 'sub', 'subname', 'ppm_antifloat'):
            pass
        else:
            raise Refused('unknown property')
        if any(len(e[k]) != 2 for k in ('buses', 'conns', 'kvs', 'kvas', 'rs', 'taps')):
            raise Refused('wrong count')
    elif cls == 'capacitor':
        if name == 'bus1':
            e['bus1'] = bus(word(value, grouped))
        elif name == 'phases':
            e['phases'] = whole(value, grouped)
        elif name in ('kvar', 'kv'):
            e[name] = one(value, grouped)
        elif name == 'bus2':
            raise Refused('unsupported')
        elif name == 'conn':
            e['conn'] = conn(word(value, grouped))
        elif name == 'numsteps':
            if one(value, grouped) != ONE:
                raise Refused('unsupported')
        elif name == 'states':
            a = array(value, grouped)
            if len(a) != 1:
                raise Refused('wrong count')
            e['closed'] = e['now'] = a[0] == ONE
        else:
            raise Refused('unknown property')
    elif cls == 'load':
        if name == 'bus1':
            e['bus1'] = bus(word(value, grouped))
        elif name == 'phases':
            e['phases'] = whole(value, grouped)
        elif name == 'model':
            m = one(value, grouped)
            if m not in (ONE, 2 * ONE, 5 * ONE, 8 * ONE):
                raise Refused('unsupported')
            e['model'] = m // ONE
        elif name == 'zipv':
            a = array(value, grouped)
            for share in a[:6]:
                check(share, -10 * ONE, 10 * ONE)
            if len(a) != 7:
                raise Refused('wrong count')
            if a[6]:
                raise Refused('unsupported')
            e['zipv'] = a[:6]
        elif name == 'conn':
            e['conn'] = conn(word(value, grouped))
        elif name == 'pf':
            e['pf'] = one(value, grouped)
            e['bykvar'] = False
        elif name == 'kvar':
            e['kvar'] = one(value, grouped)
            e['bykvar'] = True
        elif name == 'kw':
            e['kw'] = one(value, grouped)
        elif name == 'kv':
            e['kv'] = one(value, grouped)
        elif name == 'vminpu':
            e['vminpu'] = one(value, grouped)
        elif name == 'vmaxpu':
            e['vmaxpu'] = one(value, grouped)
        elif name == 'daily':
            e['daily'] = word(value, grouped).lower()
        elif name in ('class', 'numcust'):
            pass
        else:
            raise Refused('unknown property')
    elif cls in ('regcontrol', 'capcontrol'):
        set_control(circuit, e, name, value, grouped)
    elif cls == 'loadshape':
        if name == 'npts':
            e['npts'] = whole(value, grouped)
        elif name == 'mult':
            e['mult'] = array(value, grouped)
        elif name == 'interval':
            supported(one(value, grouped) == ONE)
        else:
            raise Refused('unknown property')


def set_control(circuit, e, name, value, grouped):
    if name not in e:
        raise Refused('unknown property')
    if name in ('transformer', 'capacitor', 'element'):
        w = word(value, grouped).lower()
        if name == 'element':
            if not w.startswith('line.'):
                raise Refused('bad value')
            w = w[5:]
        if (name if name != 'element' else 'line', w) not in circuit:
            raise Refused('unknown name')
        e[name] = w
    elif name == 'type':
        e[name] = word(value, grouped).lower()
        if e[name] not in ('voltage', 'current', 'kvar'):
            raise Refused('unsupported')
    elif name in ('winding', 'terminal', 'maxtapchange', 'ptphase', 'ctphase'):
        e[name] = whole(value, grouped)
    elif name in ('delay', 'tapdelay', 'delayoff', 'deadtime'):
        e[name] = near(one(value, grouped), 10 ** 6)
    else:
        e[name] = one(value, grouped)


def decimals(v):
    """A number of units of 10^-9 with nine decimals."""
    return ('-' if v < 0 else '') + f'{abs(v) // ONE}.{abs(v) % ONE:09}'


def column(data):
    """The numbers that the records of a file begin with, in units of 10^-9."""
    text = data.removeprefix(b'\xef\xbb\xbf').decode('latin1')
    records = [r for r in csv.reader(io.StringIO(text, newline='')) if r]
    try:
        found = [number(r[0].strip(' \t')) for r in records]
    except Refused:
        found = []
    if not found:
        raise Refused('bad value')
    return found


OPTIONS = dict(mode='snap', number=1, maxiterations=15, tolerance=100000, hertz=60, controlmode='static',
               maxcontroliter=10, voltagebases=())


def set_option(options, name, value, grouped):
    name = (name or '').lower()
    check_range('option', name, value, grouped)
    if name == 'mode':
        w = word(value, grouped).lower()
        options['mode'] = 'daily' if w == 'daily' else 'snap'
        if w == 'daily':
            options['number'] = 24
    elif name == 'number':
        options['number'] = whole(value, grouped)
    elif name == 'maxiterations':
        options['maxiterations'] = whole(value, grouped)
    elif name == 'tolerance':
        options['tolerance'] = one(value, grouped)
    elif name == 'defaultbasefrequency':
        options['hertz'] = whole(value, grouped)
    elif name == 'controlmode':
        options['controlmode'] = word(value, grouped).lower()
    elif name == 'maxcontroliter':
        options[name] = whole(value, grouped)
    elif name == 'voltagebases':
        options[name] = array(value, grouped)
    elif name == 'stepsize':
        supported(word(value, grouped).lower() in ('1h', '60m', '3600'))
    else:
        raise Refused('unknown property')


class Script:
    """Runs a script; calls `solve(circuit, options)` at each Solve, and `bases` so at each CalcVoltageBases."""

    def __init__(self, files, solve, bases=lambda circuit, options: None):
        self.files, self.solve, self.bases = files, solve, bases
        self.circuit, self.options, self.last, self.has = {}, dict(OPTIONS), None, False
        self.place = None

    def read(self, name, depth, master):
        """Gives None, or the fault (file, line, cause)."""
        if name not in self.files:
            return 'absent'
        data = self.files[name].split(b'\n')
        if data and data[-1] == b'':
            data.pop()
            ended = True
        else:
            ended = False
        for k, raw in enumerate(data):
            if raw.endswith(b'\r') and (ended or k + 1 < len(data)):
                raw = raw[:-1]
            self.place = (name, k + 1)
            try:
                if len(raw) > 65536:
                    raise Refused('line too long')
                try:
                    text = raw.decode('utf8')
                except UnicodeDecodeError:
                    raise Refused('not text')
                fault = self.command(cut(text), depth, master)
                if fault:
                    return fault
            except Refused as e:
                return (e.place or (name, k + 1)) + (e.cause,)
        return None

    def pairs(self, key, pairs):
        e = self.circuit[key]
        kept = {k: (list(v) if isinstance(v, list) else v) for k, v in e.items()}
        try:
            for name, value, grouped in pairs:
                if name is None:
                    raise Refused('unsupported')
                set_pair(self.circuit, key[0], e, name, value, grouped)
        except Refused:
            self.circuit[key] = kept
            raise

    def shapes(self, cls, pairs, master):
        """The pairs with the numbers of the files that `mult` of a load shape names, each read in order."""
        found = []
        for name, value, grouped in pairs:
            if cls == 'loadshape' and (name or '').lower() == 'mult' and value[:5].lower() == 'file=':
                at = master[:master.rfind('/') + 1] + value[5:].replace('\\', '/')
                if at not in self.files:
                    raise Refused('absent file')
                value, grouped = ' '.join(decimals(v) for v in column(self.files[at])), True
            found.append((name, value, grouped))
        return found

    def command(self, items, depth, master):
        if not items:
            return
        name, value, _ = items[0]
        rest = items[1:]
        if name is not None:
            parts = name.split('.')
            if len(parts) != 3 or not all(parts):
                raise Refused('unknown command')
            key = (parts[0].lower(), parts[1].lower())
            self.edit(key, self.shapes(key[0], [(parts[2],) + items[0][1:]] + rest, master))
            return
        verb = value.lower()
        if verb in ('new', 'edit'):
            if not rest or (rest[0][0] is not None and (verb == 'edit' or rest[0][0].lower() != 'object')):
                raise Refused('bad value')
            cls, dot, nm = rest[0][1].partition('.')
            if not cls or not re.match(r'[A-Za-z0-9_%-]+\Z', nm):
                raise Refused('bad value')
            key = (cls.lower(), nm.lower())
            pairs = self.shapes(key[0], rest[1:], master)
            if verb == 'edit':
                self.edit(key, pairs)
                self.last = key
                return
            if key[0] == 'circuit':
                if self.has:
                    raise Refused('duplicate')
                self.has, key = True, ('vsource', 'source')
            elif key[0] not in NEW:
                raise Refused('unknown class')
            elif not self.has:
                raise Refused('no circuit')
            elif key in self.circuit:
                raise Refused('duplicate')
            self.circuit[key] = NEW[key[0]]()
            self.circuit[key]['place'] = self.place
            self.pairs(key, pairs)
            self.last = key
        elif verb in ('~', 'more'):
            if self.last is None:
                raise Refused('continues nothing')
            self.edit(self.last, self.shapes(self.last[0], rest, master))
        elif verb in ('set', 'solve'):
            if verb == 'solve' and not self.has:
                raise Refused('no circuit')
            for p in rest:
                set_option(self.options, *p)
            if verb == 'solve':
                return self.solve(self.circuit, self.options)
        elif verb in ('clear', 'clearall'):
            self.circuit, self.options, self.last, self.has = {}, dict(OPTIONS), None, False
        elif verb in ('redirect', 'compile'):
            if not rest or rest[0][0] is not None:
                raise Refused('bad value')
            if depth == 8:
                raise Refused('too deep')
            folder = master[:master.rfind('/') + 1]
            fault = self.read(folder + rest[0][1].replace('\\', '/'), depth + 1, master)
            if fault == 'absent':
                raise Refused('absent file')
            return fault
        elif verb in ('calcvoltagebases', 'calcv'):
            if not self.has:
                raise Refused('no circuit')
            self.bases(self.circuit, self.options)
        elif verb in ('show', 'export', 'plot', 'visualize', 'buscoords'):
            pass
        else:
            raise Refused('unknown command')

    def edit(self, key, pairs):
        if key[0] not in NEW:
            raise Refused('unknown class')
        if not self.has:
            raise Refused('no circuit')
        if key not in self.circuit:
            raise Refused('unknown name')
        self.pairs(key, pairs)


# `ranges` stands on the forms of values above.
from ranges import check_range  # noqa: E402
