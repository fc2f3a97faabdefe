"""Voltage bases: which buses a source reaches, and the base of each. Whole numbers alone."""
from controls import micro
from elements import R3, T15
from script import near


def nominal_of_winding(e, w):
    """The nominal voltage of a winding's bus as (numerator, whether it is to be taken over root three)."""
    bus, phases, conn = e['buses'][w], e['phases'], e['conns'][w]
    numbers = (bus[1] or [1, 2]) if conn == 'delta' else (bus[1] or [1]) + [0] * (len(bus[1]) < 2)
    is_to_ground = phases == 1 and len(numbers) == 2 and 0 in numbers
    return e['kvs'][w], not is_to_ground


def reached(circuit):
    """The buses in the order in which they are reached, each with its nominal voltage."""
    found, before = {}, None
    while before != len(found):
        before = len(found)
        for (cls, _), e in circuit.items():
            if cls == 'vsource':
                found.setdefault(e['bus1'][0], (e['basekv'], e['phases'] == 3))
            elif cls == 'line' and e['bus1'] and e['bus2']:
                ends = e['bus1'][0], e['bus2'][0]
                for here, there in (ends, ends[::-1]):
                    if here in found:
                        found.setdefault(there, found[here])
            elif cls == 'transformer' and all(e['buses']):
                ends = e['buses'][0][0], e['buses'][1][0]
                for w, (there, here) in enumerate((ends, ends[::-1])):
                    if here in found:
                        found.setdefault(there, nominal_of_winding(e, w))
    return found


def base_of(nominal, bases):
    """The option's value whose part by root three is nearest, the smaller where two are as near."""
    kv, is_over_root = nominal
    scale = T15 if is_over_root else R3
    return min(sorted(bases), key=lambda base: abs(base * T15 - kv * scale))


def base_records(circuit, bases):
    if not bases:
        return []
    found = {bus: base_of(nominal, bases) for bus, nominal in reached(circuit).items()}
    return ['base,%s,%s' % (bus, micro(near(base, 1000))) for bus, base in found.items()]
