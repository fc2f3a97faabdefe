"""Short circuits: the circuit of one, and its records."""
from certified import record
from network import Layout
from script import NEW

NODES = {'lll': [1, 2, 3], 'lg1': [1], 'lg2': [2], 'lg3': [3]}
DROPPED = ('load', 'capacitor', 'regcontrol', 'capcontrol')


def missing(circuit, bus, kind):
    """The first node of the bus that is to be joined to ground and that the scripted circuit hasn't, or None."""
    nodes = Layout(circuit).nodes
    return next(((bus, n) for n in NODES[kind] if (bus, n) not in nodes), None)


def short_name(circuit):
    """The first of short, short-1, short-2 and so on that no Line has."""
    name, k = 'short', 0
    while ('line', name) in circuit:
        k += 1
        name = 'short-%d' % k
    return name


def circuit_of(circuit, bus, kind):
    """The circuit without what draws current and without controls, with a Line of no impedance from the bus to ground.

    It stands at the taps that the script gives, as nothing has moved them.
    """
    nodes = NODES[kind]
    line = NEW['line']()
    line.update(bus1=(bus, nodes), bus2=(bus, [0] * len(nodes)), phases=len(nodes), zform='sequence', r1=0, x1=0)
    kept = {key: e for key, e in circuit.items() if key[0] not in DROPPED}
    return kept | {('line', short_name(circuit)): line}


def records(made, bus, kind):
    """What leaves each node into the short circuit, in the order of its phases; the added line is the last element."""
    nodes, x, r = NODES[kind], made.x, made.radii
    first = made.net.nn + made.net.nb - len(nodes)
    return [record('short', '%s,%d' % (bus, n), x[2 * k], x[2 * k + 1], r[2 * k], *made.sizes(k))
            for k, n in enumerate(nodes, first)]
