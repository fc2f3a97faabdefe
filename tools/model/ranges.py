"""The ranges of the script's values, which include their ends. Whole numbers alone."""
from script import ONE, Refused, array, number, one, tokens, whole

MILLI, MILLION = ONE // 1000, 10 ** 6 * ONE
OHMS, KILOVOLTS, RATINGS, TIMES = (0, 10 ** 4 * ONE), (ONE // 100, 1000 * ONE), (MILLI, MILLION), (0, MILLION)
# of one number
RANGES = {
    ('vsource', 'basekv'): (MILLI, 1000 * ONE),
    ('vsource', 'pu'): (0, 2 * ONE),
    ('vsource', 'mvasc3'): RATINGS,
    ('vsource', 'mvasc1'): RATINGS,
    ('vsource', 'x1r1'): (0, 100 * ONE),
    ('vsource', 'x0r0'): (0, 100 * ONE),
    ('vsource', 'r1'): OHMS,
    ('vsource', 'x1'): OHMS,
    ('vsource', 'r0'): OHMS,
    ('vsource', 'x0'): OHMS,
    ('linecode', 'nphases'): (ONE, 3 * ONE),
    ('line', 'phases'): (ONE, 3 * ONE),
    ('line', 'length'): (0, MILLION),
    ('line', 'r1'): OHMS,
    ('line', 'x1'): OHMS,
    ('line', 'r0'): OHMS,
    ('line', 'x0'): OHMS,
    ('line', 'c1'): (0, MILLION),
    ('line', 'c0'): (0, MILLION),
    ('transformer', 'wdg'): (ONE, 2 * ONE),
    ('transformer', 'kv'): KILOVOLTS,
    ('transformer', 'kva'): RATINGS,
    ('transformer', '%r'): (0, 100 * ONE),
    ('transformer', 'tap'): (ONE // 2, 2 * ONE),
    ('transformer', 'mintap'): (ONE // 2, 2 * ONE),
    ('transformer', 'maxtap'): (ONE // 2, 2 * ONE),
    ('transformer', 'numtaps'): (ONE, 1000 * ONE),
    ('transformer', 'xhl'): (0, 100 * ONE),
    ('transformer', '%loadloss'): (0, 200 * ONE),
    ('capacitor', 'kvar'): (0, 10 ** 5 * ONE),
    ('capacitor', 'kv'): KILOVOLTS,
    ('load', 'kv'): KILOVOLTS,
    ('load', 'kw'): (-300000 * ONE, 300000 * ONE),
    ('load', 'kvar'): (-300000 * ONE, 300000 * ONE),
    ('load', 'vminpu'): (4 * ONE // 10, ONE),
    ('load', 'vmaxpu'): (ONE, 2 * ONE),
    ('regcontrol', 'winding'): (ONE, 2 * ONE),
    ('regcontrol', 'vreg'): (ONE, MILLION),
    ('regcontrol', 'band'): (MILLI, 1000 * ONE),
    ('regcontrol', 'ptratio'): RATINGS,
    ('regcontrol', 'ctprim'): RATINGS,
    ('regcontrol', 'r'): (-1000 * ONE, 1000 * ONE),
    ('regcontrol', 'x'): (-1000 * ONE, 1000 * ONE),
    ('regcontrol', 'delay'): TIMES,
    ('regcontrol', 'tapdelay'): TIMES,
    ('regcontrol', 'maxtapchange'): (ONE, 1000 * ONE),
    ('capcontrol', 'terminal'): (ONE, 2 * ONE),
    ('capcontrol', 'ptratio'): RATINGS,
    ('capcontrol', 'ctratio'): RATINGS,
    ('capcontrol', 'onsetting'): (-MILLION, MILLION),
    ('capcontrol', 'offsetting'): (-MILLION, MILLION),
    ('capcontrol', 'delay'): TIMES,
    ('capcontrol', 'delayoff'): TIMES,
    ('capcontrol', 'deadtime'): TIMES,
    ('loadshape', 'npts'): (0, 8760 * ONE),
    ('option', 'number'): (ONE, 8760 * ONE),
    ('option', 'maxiterations'): (ONE, 1000 * ONE),
    ('option', 'tolerance'): (1, 10 ** 8),
    ('option', 'maxcontroliter'): (0, 100 * ONE),
}
# of each number of several
EACH = {
    ('transformer', 'kvs'): KILOVOLTS,
    ('transformer', 'kvas'): RATINGS,
    ('transformer', '%rs'): (0, 100 * ONE),
    ('transformer', 'taps'): (ONE // 2, 2 * ONE),
    ('loadshape', 'mult'): (0, 1000 * ONE),
    ('option', 'voltagebases'): (MILLI, 1000 * ONE),
}
# of each entry of a matrix
ENTRIES = {
    'rmatrix': (-10 ** 4 * ONE, 10 ** 4 * ONE),
    'xmatrix': (-10 ** 4 * ONE, 10 ** 4 * ONE),
    'cmatrix': (-MILLION, MILLION),
}
POWER_FACTORS = ONE // 100, ONE
WHOLE = ('phases', 'nphases', 'wdg', 'numtaps', 'winding', 'terminal', 'maxtapchange', 'npts', 'number', 'maxiterations',
         'maxcontroliter')


def within(v, ends):
    if not ends[0] <= v <= ends[1]:
        raise Refused('value out of range')


def check_range(cls, name, value, grouped):
    """Refuses a value that is outside the range of its property; one that can't be read is refused as such."""
    if cls == 'linecode' and ('line', name) in RANGES:
        cls = 'line'
    if (cls, name) in RANGES:
        within(whole(value, grouped) * ONE if name in WHOLE else one(value, grouped), RANGES[cls, name])
    elif (cls, name) == ('load', 'pf'):
        within(abs(one(value, grouped)), POWER_FACTORS)
    elif (cls, name) in EACH:
        for v in array(value, grouped):
            within(v, EACH[cls, name])
    elif cls in ('line', 'linecode') and name in ENTRIES and grouped:
        for v in tokens(value.replace('|', ' ')):
            within(number(v), ENTRIES[name])
