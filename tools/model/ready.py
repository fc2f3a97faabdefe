"""The tests of Solve: the first element that is to blame, and the cause. Whole numbers alone."""
from elements import line_ends, line_nodes, mentions, pairs_of, source_nodes
from script import ONE, Refused

MOST_COMPLEX, MOST_MAGNITUDES, MOST_OHMS = 480, 96, 10 ** 13
MOST_ELEMENTS = 1 << 17      # of a large circuit, whose nodes and branches aren't counted
BRANCHES = ('vsource', 'line', 'transformer')
WITH_FREQUENCY = BRANCHES + ('linecode', 'capacitor', 'load')


def check_ready(circuit, hertz, is_large=False):
    """Refuses a circuit at the place of the element that is to blame."""
    before = {}
    for key, e in circuit.items():
        cause = cause_of(key, e, circuit, before, hertz)
        if cause:
            raise Refused(cause, e['place'])
        before[key] = e
    if not is_large:
        check_limits(circuit)
    elif len(circuit) > MOST_ELEMENTS:
        raise Refused('too many', list(circuit.values())[MOST_ELEMENTS]['place'])
    check_fed(circuit)


def cause_of(key, e, circuit, before, hertz):
    terminals = terminal_causes(key[0], e)
    if is_outside(key, e, circuit):
        return 'value out of range'
    if 'wrong count' in terminals or is_count_wrong(key, e, circuit):
        return 'wrong count'
    if 'unsupported' in terminals or is_unsupported(key[0], e, hertz):
        return 'unsupported'
    if is_second_control(key[0], e, before):
        return 'duplicate'
    if key[0] == 'line' and e['zform'] is None:
        return 'no impedance'
    return None


# ---------------------------------------------------------------- terminals

def terminal_causes(cls, e):
    """What is wrong with the nodes of an element at its buses."""
    if cls == 'vsource':
        tests = [lambda: source_nodes(e)]
    elif cls == 'line':
        tests = [lambda bus=bus: line_nodes(bus, e['phases']) if bus else missing() for bus in (e['bus1'], e['bus2'])]
    elif cls == 'transformer':
        tests = [lambda bus=bus, conn=conn: pairs_of(bus, e['phases'], conn) if bus else missing()
                 for bus, conn in zip(e['buses'], e['conns'])]
    elif cls in ('capacitor', 'load'):
        tests = [lambda: pairs_of(e['bus1'], e['phases'], e['conn']) if e['bus1'] else missing()]
    else:
        tests = []
    return [cause for cause in map(refusal, tests) if cause]


def missing():
    raise Refused('wrong count')


def refusal(test):
    try:
        test()
    except Refused as e:
        return e.cause
    return None


# ---------------------------------------------------------------- values that don't fit each other

def is_outside(key, e, circuit):
    if key[0] == 'vsource':
        return not e['ohms'] and any(e['basekv'] ** 2 // e[it] > MOST_OHMS for it in ('mvasc3', 'mvasc1'))
    if key[0] == 'transformer':
        return any(is_winding_outside(key[1], e, w, circuit) for w in (0, 1))
    if key[0] == 'regcontrol':
        return is_no_phase(e['ptphase'], circuit.get(('transformer', e['transformer'])))
    if key[0] == 'capcontrol':
        line = circuit.get(('line', e['element']))
        on, off = e['onsetting'], e['offsetting']
        is_turned = on >= off if e['type'] == 'voltage' else off >= on
        return is_turned or is_no_phase(e['ptphase'], line) or is_no_phase(e['ctphase'], line)
    return False


def is_winding_outside(name, e, w, circuit):
    is_tap_outside = not e['mintap'][w] <= e['taps'][w] <= e['maxtap'][w]
    controlled = is_tap_outside and any(cls == 'regcontrol' and it['transformer'] == name and it['winding'] == w + 1
                                        for (cls, _), it in circuit.items())
    return e['maxtap'][w] < e['mintap'][w] + e['numtaps'][w] or controlled


def is_no_phase(phase, e):
    return e is not None and not 1 <= phase <= e['phases']


# ---------------------------------------------------------------- counts, what is unsupported, second controls

def is_count_wrong(key, e, circuit):
    if key[0] == 'line':
        given = [e[it] for it, form in (('rmatrix', 'zform'), ('xmatrix', 'zform'), ('cmatrix', 'cform')) if e[form] == 'matrix']
        return any(m is not None and len(m) != e['phases'] for m in given)
    if key[0] == 'load':
        return e['model'] == 8 and e['zipv'] is None
    if key[0] == 'regcontrol':
        return e['transformer'] is None
    if key[0] == 'capcontrol':
        return e['element'] is None or e['capacitor'] is None
    if key[0] == 'loadshape':
        is_followed = any(cls == 'load' and it['daily'] == key[1] for (cls, _), it in circuit.items())
        return is_followed and (e['npts'] == 0 or len(e['mult']) < e['npts'])
    return False


def is_unsupported(cls, e, hertz):
    differs = cls in WITH_FREQUENCY and e.get('basefreq') not in (None, hertz * ONE)
    return differs or cls == 'transformer' and e['kvas'][0] != e['kvas'][1]


def is_second_control(cls, e, before):
    names = {'regcontrol': ('transformer', 'winding'), 'capcontrol': ('capacitor',)}.get(cls)
    return bool(names) and any(other == cls and all(it[n] == e[n] for n in names) for (other, _), it in before.items())


# ---------------------------------------------------------------- all elements together

def check_limits(circuit):
    nodes, branches, magnitudes = set(), 0, 0
    for (cls, _), e in circuit.items():
        nodes |= {it for it in mentions(cls, e) if it[1]}
        branches += e['phases'] if cls in BRANCHES else 0
        magnitudes += e['phases'] if cls == 'load' and e['model'] in (5, 8) else 0
        if len(nodes) + branches > MOST_COMPLEX or magnitudes > MOST_MAGNITUDES:
            raise Refused('too many', e['place'])


def tied(cls, e):
    """Groups of nodes of which all are fed where one is."""
    if cls == 'line':
        return [{it for it in pair if it[1]} for pair in zip(*line_ends(e))]
    return [{it for it in mentions(cls, e) if it[1]}] if cls == 'transformer' else []


def check_fed(circuit):
    groups = [group for (cls, _), e in circuit.items() for group in tied(cls, e)]
    fed, before = {it for (cls, _), e in circuit.items() if cls == 'vsource' for it in source_nodes(e) if it[1]}, None
    while before != len(fed):
        before = len(fed)
        for group in groups:
            if group & fed:
                fed |= group
    for (cls, _), e in circuit.items():
        if any(it[1] and it not in fed for it in mentions(cls, e)):
            raise Refused('isolated node', e['place'])
