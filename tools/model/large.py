"""The state of a large radial circuit, and its bounds by derived rows, in time linear in its size. Whole numbers.

The equations, weights, mismatches, Jacobian and radii of slopes are those of `solve`. What is other is said here.

*Units.* One is 2^40. States, residuals and mismatches are in whole micro-units, steps and bounds in 2^-20 of one,
heights in 2^-60 of one. *Nearest* takes ties away from zero.

*Levels.* The nodes of Vsource.source are reached. A Line or Transformer is taken, as in `ladder`, where all nodes of
one side, for a Transformer of winding 1, are reached and none of the other side is; then its *far* nodes, those of the
other side, are reached too. It has a far node for each phase, distinct ones, which a Transformer joins to ground. Where
each can be taken and there is no other Vsource the circuit is radial, and the order of taking changes nothing. Else the
Solve ends with 15, and the element is the one that `ladder` names. The level of a bus is the least number of sections
from the source's bus to it, each from its near bus to its far one; a section without near nodes begins at level 0.

*Order and pairs.* Each unknown has an equation. First come magnitudes, each with its own row, in order of places; then
the levels from the deepest to level 0. Of a level, that of the far buses, come all branch currents, each phase with the
current law of its far node, then all far nodes, each with the voltage equation of its phase: sections in script order,
their phases in order, the real part before the imaginary one. Of level 0 Vsource.source comes first, with its nodes. So
unknown q_t and equation p_t have the place t, from 0 to n - 1.

*Factors* of a matrix, row p_t being its row at place t. For t from 0 on, row t is final. Its entry at q_t is the pivot;
below 2^8 in size there is no inverse: status 6, q_t, `pivot`. For each row r behind it with an entry e at q_t that
isn't 0, the multiple is f = e 2^40 / pivot to the nearest. Row r loses its entry at q_t, and of each other place f
times the entry of row t over 2^40, each product by itself to the nearest. Where f or a new entry is past 2^62 in size,
status 6, q_t, `range`. What is left of row t are its entries that aren't 0, the pivot first, then in order of places.

*A step* with factors. Of the residual, b_t being that of p_t: for t from 0 on y_t = 2^20 b_t less the sum of f y_k over
the multiples f of rows k, the exact sum over 2^40 to the nearest; for t from n - 1 down d_t = (2^40 y_t - the sum of
u d_j over the other entries u left in row t, at q_j) over the pivot, to the nearest. The unknown q_t loses d_t over
2^20, to the nearest. Out of range, status 7, with the count of steps that are done: the first place with a residual
past 2^42; the q_t of the first y_t or d_t that is past 2^62, or of which a partial sum, in order of places, is past
2^120; the first place at which the state is past 2^40.

*The state.*
1. With the factors of the start matrix: the start is what a step makes of the constants and a state of zeros, with
   Vn as each magnitude. Steps follow until one moves no node part and no magnitude by more than `tolerance` times its
   weight behind the step; status 8 where the step `maxiterations` isn't such a one.
2. With the factors of the Jacobian at that state: steps as long as the sum of all mismatches falls, at most 16. The
   last state of which the sum fell stays.
3. Status 9 where a mismatch is past 1,000.

*Rows.* The factors of the Jacobian J at the state are the derived rows: row t is equation p_t once, less f times row k
for each multiple, and leaves its entries. Its defect at unknown j is

    E_tj = 2^40 J_pj - sum of f times the entry of row k at j - 2^40 times its own entry at j            in 2^-80.

*Bounds* in a box of w / D, rounded up, with the radii of slopes R there, from bounds r of 0:
1. Each bound is raised by r / 2^20, rounded down, and by one, to c.
2. For t from 0 on: g = sum |f| h_k + sum (2^40 R_pj + |E_tj|) c_j + 2^101 e_p; h_t = g / 2^40 rounded down, and one.
3. For t from n - 1 down: s = the sum of |u| r_j over the other entries left, and h_t; r_t = s / |pivot| rounded down,
   and one. These are the new bounds of the q_t.
4. Where no new bound is above its c, rows stand: the heights h and the bounds r are the proof, since all that was
   weighed with c holds with r. Else it begins again with r, at most 64 times.

A g or an s of 2^127 or more, or a bound past 2^60, ends the box at q_t; so does the 64th time, at the first place whose
bound is above its c. Before all that the first row of which the sizes of all products that make its defects, at all
unknowns together, add up to more than 2^120 ends each box at its q_t. D is 200, else 2,000, else 20,000; where no box
has rows that stand, status 10, `not bounded`, with the unknown at which the last one ended. The radius is r / 2^20
rounded up, of two parts the greater one.
"""
import derived
import ladder
from certified import Certified, mismatches, radii_of_slopes
from elements import B40, P120, ceil, source_nodes
from procedure import Fault, Procedure
from script import near

LEAST_PIVOT, MOST_ENTRY = 1 << 8, 1 << 62
MOST_RESIDUAL, MOST_FINE, FINE = 1 << 42, 1 << 62, 20
MOST_SUM, MOST_BOUND = 1 << 127, 1 << 60
MOST_ROUNDS, MOST_POLISHING = 64, 16


def divided(n, d):
    """n / d to the nearest, ties away from zero; d isn't 0."""
    return near(n, d) if d > 0 else near(-n, -d)


# ---------------------------------------------------------------- the order

def sections_of(circuit):
    return [ladder.Section(key, e) for key, e in circuit.items() if key[0] in ('line', 'transformer')]


def taken_in(circuit):
    """The sections that are taken, in script order, each with the nodes of its near side and those of its far side."""
    sections = sections_of(circuit)
    reached = {node for node in source_nodes(circuit['vsource', 'source']) if node[1]}
    touching, taken = {}, [None] * len(sections)
    for k, s in enumerate(sections):
        for node in s.sides[0] + s.sides[1]:
            touching.setdefault(node, []).append(k)
    waiting = range(len(sections))
    while waiting:
        again = []
        for k in waiting:
            way = sections[k].way_from(reached) if taken[k] is None else None
            if way is not None:
                taken[k] = sections[k].sides[way], sections[k].sides[1 - way]
                reached.update(taken[k][1])
                again += [other for node in taken[k][1] for other in touching[node]]
        waiting = again
    return [(s.name, *it) for s, it in zip(sections, taken) if it]


def levels_of(circuit, taken):
    """The levels of buses, by name: how many sections there are at least from the source."""
    behind = {}
    for _, near_nodes, far_nodes in taken:
        behind.setdefault(near_nodes[0][0] if near_nodes else None, []).append(far_nodes[0][0])
    front = [circuit['vsource', 'source']['bus1'][0], None]
    level = {bus: 0 for bus in front}
    while front:
        found = []
        for bus in front:
            for other in behind.get(bus, []):
                if other not in level:
                    level[other] = level[bus] + 1
                    found.append(other)
        front = found
    return level


def first_offending(circuit):
    """The element for which the circuit isn't radial, or None."""
    nodes = source_nodes(circuit['vsource', 'source'])
    is_fed_once = all(n for _, n in nodes) and sum(key[0] == 'vsource' for key in circuit) == 1
    if is_fed_once and ladder.are_distinct(nodes) and len(taken_in(circuit)) == len(sections_of(circuit)):
        return None
    return ladder.first_offending(circuit)


def order_of(net):
    """The unknowns of a radial circuit in order, each with its equation."""
    first = {}
    for k, (name, _) in enumerate(net.branches, net.nn):
        first.setdefault(name, k)

    def pairs(name, nodes):
        return [(first[name] + k, net.at(node)) for k, node in enumerate(nodes)]
    taken, groups = taken_in(net.circuit), {}
    level = levels_of(net.circuit, taken)
    for name, nodes in [('vsource.source', source_nodes(net.circuit['vsource', 'source']))] + [it[::2] for it in taken]:
        groups.setdefault(level[nodes[0][0]], []).extend(pairs(name, nodes))
    out = [(k, k) for k in range(2 * (net.nn + net.nb), net.n)]
    for k in sorted(groups, reverse=True):
        out += [(2 * branch + part, 2 * node + part) for branch, node in groups[k] for part in (0, 1)]
        out += [(2 * node + part, 2 * branch + part) for branch, node in groups[k] for part in (0, 1)]
    return out


# ---------------------------------------------------------------- factors

class Factors:
    """The factors of rows {column: entry}. For each place `multiples` has pairs (place of a row, multiple) and `left`
    pairs (unknown, entry) with the pivot first."""

    def __init__(self, net, rows, order):
        self.net, self.rows, self.order = net, rows, order
        self.multiples, self.left = [[] for _ in order], []
        self.place = [0] * len(order)
        for t, (_, p) in enumerate(order):
            self.place[p] = t
        work = [{c: v for c, v in row.items() if v} for row in rows]
        holders = [[] for _ in rows]         # the rows that had an entry in a column once
        for r, row in enumerate(work):
            for c in row:
                holders[c].append(r)
        for t in range(len(order)):
            self.eliminate(t, work, holders)

    def eliminate(self, t, work, holders):
        q, p = self.order[t]
        pivot = work[p].pop(q, 0)
        if abs(pivot) < LEAST_PIVOT:
            raise Fault(6, 'no inverse', self.net.name(q), 'pivot')
        others = sorted(work[p].items())
        self.left.append([(q, pivot)] + others)
        for r in holders[q]:
            e = work[r].pop(q, 0) if self.place[r] > t else 0
            f = divided(e << 40, pivot)
            if f:
                self.multiples[self.place[r]].append((t, f))
                most = self.subtract(f, others, r, work[r], holders)
                if max(abs(f), most) > MOST_ENTRY:
                    raise Fault(6, 'no inverse', self.net.name(q), 'range')

    @staticmethod
    def subtract(f, others, r, row, holders):
        """Takes a multiple of a row off another; gives the greatest size of a new entry."""
        most = 0
        for c, v in others:
            if c not in row:
                holders[c].append(r)
            w = row.get(c, 0) - near(f * v, B40)
            most = max(most, abs(w))
            row[c] = w
            if not w:
                del row[c]
        return most

    def step(self, right, steps):
        """How the unknowns move for right sides in micro-units."""
        y, out = [], [0] * len(right)
        for (q, p), held in zip(self.order, self.multiples):
            total = summed(0, [(f, y[k]) for k, f in held])
            y.append(None if total is None else (right[p] << FINE) - near(total, B40))
            self.test_fine(q, y[-1], steps)
        for t in range(len(y) - 1, -1, -1):
            (q, pivot), *others = self.left[t]
            total = summed(y[t] << 40, [(-v, out[c]) for c, v in others])
            out[q] = None if total is None else divided(total, pivot)
            self.test_fine(q, out[q], steps)
        return [near(v, 1 << FINE) for v in out]

    def test_fine(self, q, v, steps):
        if v is None or abs(v) > MOST_FINE:
            raise Fault(7, 'out of range', self.net.name(q), str(steps))

    def defects(self):
        """The defects that aren't 0, as rows {unknown: size}."""
        out = []
        for (_, p), held, left in zip(self.order, self.multiples, self.left):
            wrong = {c: v << 40 for c, v in self.rows[p].items()}
            for f, entries in [(B40, left)] + [(f, self.left[k]) for k, f in held]:
                for c, v in entries:
                    wrong[c] = wrong.get(c, 0) - f * v
            out.append({c: abs(v) for c, v in wrong.items() if v})
        return out

    def first_past(self):
        """The unknown of the first row whose sizes of all that makes its defects are past 2^120, or None."""
        sizes = [sum(abs(v) for _, v in left) for left in self.left]
        for t, ((q, p), held) in enumerate(zip(self.order, self.multiples)):
            own = sum(abs(v) for v in self.rows[p].values()) + sizes[t]
            if (own << 40) + sum(abs(f) * sizes[k] for k, f in held) > P120:
                return q
        return None


def summed(total, pairs):
    """A number with products added one after the other, or None where a partial sum is past 2^120."""
    most = abs(total)
    for a, b in pairs:
        total += a * b
        most = max(most, abs(total))
    return total if most <= P120 else None


# ---------------------------------------------------------------- bounds

class Rows:
    """The derived rows of a state, and what they bound in a box."""

    def __init__(self, net, x, mismatch, factors):
        self.net, self.x, self.mismatch, self.factors = net, x, mismatch, factors
        self.defects, self.past = factors.defects(), factors.first_past()

    def bound(self, boxes):
        """Finds heights and bounds that stand in the box; gives the unknown at which it ends where there are none."""
        if self.past is not None:
            return self.past
        off = self.weighed(boxes)
        bounds = [0] * self.net.n
        for self.rounds in range(1, MOST_ROUNDS + 1):
            raised = [r + (r >> 20) + 1 for r in bounds]
            heights, bounds, ended = self.passes(off, raised)
            if ended is not None:
                return ended
            above = next((k for k, (r, c) in enumerate(zip(bounds, raised)) if r > c), None)
            if above is None:
                self.heights, self.bounds = heights, bounds
                return None
        return above

    def weighed(self, boxes):
        """For each place pairs (unknown, radius of its slope and defect in 2^-80)."""
        self.slopes = [{} for _ in range(self.net.n)]
        for c, column in enumerate(radii_of_slopes(self.net, self.x, boxes)):
            for r, v in column.items():
                self.slopes[r][c] = v
        out = []
        for (_, p), wrong in zip(self.factors.order, self.defects):
            row = {c: v << 40 for c, v in self.slopes[p].items()}
            for c, v in wrong.items():
                row[c] = row.get(c, 0) + v
            out.append(list(row.items()))
        return out

    def passes(self, off, raised):
        """The heights over these bounds, the bounds of these heights, and the unknown whose number is too large."""
        f, heights, bounds = self.factors, [], [0] * len(raised)
        for (q, p), row, held in zip(f.order, off, f.multiples):
            total = self.mismatch[p] << 101
            for c, v in row:
                total += v * raised[c]
            for k, v in held:
                total += abs(v) * heights[k]
            heights.append((total >> 40) + 1)
            if total >= MOST_SUM:
                return heights, bounds, q
        for t in range(len(heights) - 1, -1, -1):
            (q, pivot), *others = f.left[t]
            total = heights[t]
            for c, v in others:
                total += abs(v) * bounds[c]
            bounds[q] = total // abs(pivot) + 1
            if total >= MOST_SUM or bounds[q] > MOST_BOUND:
                return heights, bounds, q
        return heights, bounds, None


# ---------------------------------------------------------------- the state

class Sought(Procedure):
    """The state that is found, with its mismatches."""

    def __init__(self, net, order, limit, tolerance):
        self.net, self.step, self.order = net, 0, order
        factors = Factors(net, net.start_matrix(), order)
        self.test_residual(net.constants)
        self.x = [-v for v in self.change(factors, net.constants)]
        self.seek(factors, limit, tolerance)
        self.polish()

    def test_residual(self, res):
        for k, v in enumerate(res):
            if abs(v) > MOST_RESIDUAL:
                raise Fault(7, 'out of range', self.net.name(k), str(self.step))

    def change(self, factors, res):
        return factors.step(res, self.step)

    def polish(self):
        factors = Factors(self.net, self.net.jacobian(self.x), self.order)
        self.mismatch = mismatches(self.net, self.x)
        for _ in range(MOST_POLISHING):
            before = self.x
            self.move(factors)
            mismatch = mismatches(self.net, self.x)
            if sum(mismatch) >= sum(self.mismatch):
                self.x = before
                return
            self.mismatch = mismatch


class Large(Certified):
    """The state that the procedure reaches, with its derived rows."""

    def __init__(self, net, limit, tolerance):
        order = order_of(net)
        found = Sought(net, order, limit, tolerance)
        self.net, self.x, self.mismatch, self.steps = net, found.x, found.mismatch, found.steps
        self.test_mismatches()
        self.weights = net.weights(self.x)
        self.rows = Rows(net, self.x, self.mismatch, Factors(net, net.jacobian(self.x), order))
        for self.divisor in derived.BOXES:
            self.boxes = derived.boxes_of(net, self.weights, self.divisor)
            ended = self.rows.bound(self.boxes)
            if ended is None:
                break
        else:
            raise Fault(10, 'not bounded', net.name(ended))
        self.bound = self.rows.rounds
        self.radii = [ceil(r, 1 << FINE) for r in self.rows.bounds]
        for k in range(0, 2 * (net.nn + net.nb), 2):
            self.radii[k:k + 2] = [max(self.radii[k:k + 2])] * 2

    def block(self, number, hour, turn):
        return derived.block_lines(self, number, hour, turn)
