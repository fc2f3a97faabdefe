"""sums.py SCRIPT..: the greatest numbers that a checker of derived rows meets on these scripts, by the exact model.

Of the first state of `large` of each script, as base-2 logarithms: entries and multiples in 2^-40, defects in 2^-80,
heights in 2^-60 of a micro-unit, bounds in 2^-20 of one. What is summed is said in docs/FACTORS.md: the sum of a height
is at 2^-100 and that of a bound at 2^-60 of a micro-unit, that of a defect at 2^-80. Of a script whose first Solve has
no such state the fault is written.
"""
import os
import sys
from math import log2
TOP = os.path.join(os.path.dirname(os.path.abspath(__file__)), '..', '..')
sys.path.insert(0, os.path.join(TOP, 'tools', 'model'))
import feeder  # noqa: E402

S = 1 << 40


class First(Exception):
    """The first state of a script."""


class Once(feeder.Large):
    def state(self, circuit, options, hour=0):
        raise First(super().state(circuit, options, hour))


def first_state(path):
    """The state, or the records that a run without one writes."""
    folder = os.path.dirname(os.path.abspath(path))
    held = {name: open(os.path.join(folder, name), 'rb').read() for name in os.listdir(folder)
            if os.path.isfile(os.path.join(folder, name))}
    try:
        return Once(held, ['large', os.path.basename(path)]).run()[0].decode().split('\n')[-2]
    except First as it:
        return it.args[0]


def greatest(made):
    """The greatest of each kind of number, by name."""
    rows, f, found = made.rows, made.rows.factors, {}

    def meet(name, v):
        found[name] = max(found.get(name, 0), abs(v))
    slopes = rows.slopes
    for t, (q, p) in enumerate(f.order):
        sizes = {c: abs(v) * S for c, v in f.rows[p].items()}
        for multiple, entries in [(S, f.left[t])] + [(v, f.left[k]) for k, v in f.multiples[t]]:
            for c, v in entries:
                sizes[c] = sizes.get(c, 0) + abs(multiple * v)
        for name, values in (
                ('entry of J', f.rows[p].values()), ('multiple', [v for _, v in f.multiples[t]]),
                ('entry left', [v for _, v in f.left[t]]), ('sum of sizes of a defect', sizes.values()),
                ('defect', rows.defects[t].values()), ('radius of a slope', slopes[p].values()),
                ('height', [rows.heights[t]]), ('bound', [rows.bounds[q]])):
            for v in values:
                meet(name, v)
        equation = sum(v * rows.bounds[c] for c, v in slopes[p].items()) + (made.mismatch[p] << 61)
        meet('sum of an equation', equation)
        meet('sum of a height', S * equation + sum(v * rows.bounds[c] for c, v in rows.defects[t].items())
             + sum(abs(v) * rows.heights[k] for k, v in f.multiples[t]))
        meet('sum of a bound', sum(abs(v) * rows.bounds[c] for c, v in f.left[t][1:]) + rows.heights[t])
    return found


def main(paths):
    for path in paths:
        made = first_state(path)
        if isinstance(made, str):
            print('%s: %s' % (path, made), flush=True)
            continue
        text = ', '.join('%s %.1f' % (name, log2(v)) for name, v in greatest(made).items() if v)
        print('%s: %d unknowns, box w/%d, %s' % (path, made.net.n, made.divisor, text), flush=True)


if __name__ == '__main__':
    main(sys.argv[1:])
