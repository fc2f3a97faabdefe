"""A certificate of derived rows as text, version 3, and how it is judged. Whole numbers alone.

A line is a word and numbers, as in the versions before. The file is `cert 3`, the blocks, and `end`. A block has

    solution NUMBER HOUR ROUND N                        as before
    box D                                               parts of the box are w / D, rounded up
    x PLACE CENTRE RADIUS MISMATCH                      N lines, places in order, as before
    row I HEIGHT A place multiple .. B row multiple .. C place entry ..          rows in order from 0
    bound PLACE ROW BOUND                               N lines, places in order
    act MILLISECONDS CONTROL STEPS                      as before

Rows end before the first line that isn't a row line; there may be any number. Behind A, B and C stand so many pairs. A
row is the sum of multiples of A equations, less the multiples of B other rows, and leaves C entries, at least one, the
pivot first. The places of equations rise, so do the numbers of rows, and so do the places of the entries behind the
pivot; none of these is the pivot's. Places are below N, no multiple and no entry is 0. Units are 2^-40; of a height
2^-60, of a bound 2^-20 micro-units. Of what isn't so the first line is named, by the rule *grammar*.

On a block the rules are tested in this order, each at all lines before the next:

    size        number, hour, round and N are those that are due                          the solution line
    range       D is 200, 2,000 or 20,000                                                 the box line
                centre and radius at most 2^40 in size, radius at least 0                 the x line
                height from 0 to 2^87 - 1, multiples and entries at most 2^62 in size     the row line
                bound from 0 to 2^60                                                      the bound line
    mismatch    as before                                                                 the x line
    row         the rows that it names exist; no sum of sizes of its defect is past       the row line
                2^120; its height stands above it
    bound       its row exists, has its pivot at the place, and bounds it                 the bound line
    radius      2^20 RADIUS is at least the bound                                         the x line
    undecided, acts, control limit      as before                          the line behind the last bound

A height stands above its row, and a row bounds its unknown, as docs/FACTORS.md says with s = 2^40 and b = 2^21 e, e
being the claimed mismatch. The defect at a place is the sum of products of multiples and entries of J, less those of
multiples and entries of other rows, less 2^40 times the row's own entry; the sum of sizes is that of all of these.
"""
import re
from certified import mismatches, radii_of_slopes
from elements import B40, P120, ceil

MOST_PART, MOST_ENTRY, MOST_HEIGHT, MOST_BOUND = 1 << 40, 1 << 62, (1 << 87) - 1, 1 << 60
BOXES = (200, 2000, 20000)
NUMBER = re.compile(rb'(?:0|-?[1-9][0-9]{0,38})\Z')


class Broken(Exception):
    """A rule that is broken, at a line."""

    def __init__(self, line, rule):
        self.line, self.rule = line, rule


def boxes_of(net, weights, divisor):
    return [0 if net.kind(k) == 'branch' else ceil(w, divisor) for k, w in enumerate(weights)]


# ---------------------------------------------------------------- writing

def pairs_text(pairs):
    return ' '.join(str(it) for it in [len(pairs)] + [it for pair in pairs for it in pair])


def block_lines(made, number, hour, turn):
    """The lines of the block of a state with its derived rows, without acts."""
    rows, f, n = made.rows, made.rows.factors, made.net.n
    out = ['solution %d %d %d %d' % (number, hour, turn, n), 'box %d' % made.divisor]
    out += ['x %d %d %d %d' % (k, made.x[k], made.radii[k], made.mismatch[k]) for k in range(n)]
    for t, (_, p) in enumerate(f.order):
        parts = [[(p, B40)], f.multiples[t], f.left[t]]
        out.append('row %d %d %s' % (t, rows.heights[t], ' '.join(map(pairs_text, parts))))
    own = {q: t for t, (q, _) in enumerate(f.order)}
    return out + ['bound %d %d %d' % (k, own[k], rows.bounds[k]) for k in range(n)]


# ---------------------------------------------------------------- reading

def line_of(text):
    """The word of a line and its numbers; one of another form has no word."""
    word, *fields = text.split(b' ')
    if not all(NUMBER.match(it) for it in fields):
        return None, []
    numbers = [int(it) for it in fields]
    return (word.decode('latin1'), numbers) if all(abs(v) < 1 << 127 for v in numbers) else (None, [])


def rises(places, below=None):
    """Whether places rise from 0 on, and stay below a number."""
    return all(a < b for a, b in zip([-1] + places, places)) and (below is None or not places or places[-1] < below)


class Row:
    """A derived row: its height, multiples of equations and of rows, and its entries, the pivot first."""

    def __init__(self, height, lists):
        self.height, (self.equations, self.others, self.entries) = height, lists

    @staticmethod
    def of(numbers, n):
        """The row of these numbers, or None."""
        if len(numbers) < 1:
            return None
        height, rest, lists = numbers[0], numbers[1:], []
        for _ in range(3):
            if not rest or not 0 <= 2 * rest[0] < len(rest):
                return None
            end = 1 + 2 * rest[0]
            lists.append(list(zip(rest[1:end:2], rest[2:end:2])))
            rest = rest[end:]
        places = [[at for at, _ in pairs] for pairs in lists]
        pivot, others = places[2][:1], places[2][1:]
        fits = (rises(places[0], n) and rises(places[1]) and rises(others, n) and pivot and 0 <= pivot[0] < n
                and pivot[0] not in others and all(v for pairs in lists for _, v in pairs))
        return Row(height, lists) if fits and not rest else None


class Block:
    """A block, and the number of its first line."""

    def __init__(self, first, head, divisor, parts, rows, bounds, acts):
        self.first, self.head, self.divisor, self.acts = first, head, divisor, acts
        self.parts, self.rows, self.bounds = parts, rows, bounds

    def at_part(self, k):
        return self.first + 2 + k

    def at_row(self, i):
        return self.at_part(len(self.parts)) + i

    def at_bound(self, k):
        return self.at_row(len(self.rows)) + k

    def behind(self):
        return self.at_bound(len(self.bounds))


class Reader:
    """The lines of a certificate, read block by block."""

    def __init__(self, held):
        if held is None:
            raise Broken(0, 'absent')
        *texts, last = held.split(b'\n')
        self.texts, self.at, self.blocks = texts + [last] * bool(last), 0, 0
        self.is_last_whole = not last
        if self.next() != ('cert', [3]):
            raise Broken(1, 'grammar')
        self.at = 1

    def next(self):
        """The line that comes next, without passing it."""
        is_whole = self.at < len(self.texts) - (not self.is_last_whole)
        return line_of(self.texts[self.at]) if is_whole else (None, [])

    def take(self, word, count=None, place=None):
        """The numbers of the next line, where it has this word, so many numbers and this place first."""
        found, numbers = self.next()
        if found != word or count not in (None, len(numbers)) or place not in (None, *numbers[:1]):
            raise Broken(self.at + 1, 'grammar')
        self.at += 1
        return numbers

    def block(self):
        """The next block."""
        first = self.at + 1
        head = self.take('solution', 4)
        n = max(head[3], 0)
        divisor, = self.take('box', 1)
        parts = [self.take('x', 4, k)[1:] for k in range(n)]
        rows = []
        while self.next()[0] == 'row':
            at, numbers = self.at + 1, self.take('row', None, len(rows))
            rows.append(Row.of(numbers[1:], n))
            if rows[-1] is None:
                raise Broken(at, 'grammar')
        bounds = [self.take('bound', 3, k)[1:] for k in range(n)]
        acts = []
        while self.next()[0] == 'act' and len(self.next()[1]) == 3:
            acts.append(self.take('act', 3))
        return Block(first, head, divisor, parts, rows, bounds, acts)

    def due(self):
        """A block that is due."""
        if self.next() == ('end', []):
            raise Broken(self.at + 1, 'count')
        return self.block()

    def finish(self):
        """Nothing more is due."""
        at = self.at + 1
        if self.next() == ('end', []):
            if at < len(self.texts):
                raise Broken(at + 1, 'grammar')
            return
        if self.next()[0] == 'solution' and len(self.next()[1]) == 4:
            raise Broken(at, 'count')
        raise Broken(at, 'grammar')


# ---------------------------------------------------------------- judging

class Judged:
    """A block that holds, as what controls are sampled from."""

    def __init__(self, net, block, due):
        self.net, self.block = net, block
        if block.head != [*due, net.n]:
            raise Broken(block.first, 'size')
        self.test_ranges()
        self.x, self.radii, self.mismatch = map(list, zip(*block.parts)) if net.n else ([], [], [])
        for k, least in enumerate(mismatches(net, self.x)):
            if not least <= self.mismatch[k] <= 1000:
                raise Broken(block.at_part(k), 'mismatch')
        self.test_rows()
        for k, (row, bound) in enumerate(block.bounds):
            if not self.is_bound(k, row, bound):
                raise Broken(block.at_bound(k), 'bound')
        for k, (_, bound) in enumerate(block.bounds):
            if self.radii[k] << 20 < bound:
                raise Broken(block.at_part(k), 'radius')

    def test_ranges(self):
        block = self.block
        tests = [(block.first + 1, block.divisor in BOXES)]
        tests += [(block.at_part(k), abs(x) <= MOST_PART and 0 <= radius <= MOST_PART)
                  for k, (x, radius, _) in enumerate(block.parts)]
        tests += [(block.at_row(i), 0 <= row.height <= MOST_HEIGHT and all(
            abs(v) <= MOST_ENTRY for pairs in (row.equations, row.others, row.entries) for _, v in pairs))
            for i, row in enumerate(block.rows)]
        tests += [(block.at_bound(k), 0 <= bound <= MOST_BOUND) for k, (_, bound) in enumerate(block.bounds)]
        for line, holds in tests:
            if not holds:
                raise Broken(line, 'range')

    def test_rows(self):
        net, block = self.net, self.block
        self.boxes = boxes_of(net, net.weights(self.x), block.divisor)
        jacobian, bounds = net.jacobian(self.x), [bound for _, bound in block.bounds]
        equations = [2 * e << 60 for e in self.mismatch]
        for c, column in enumerate(radii_of_slopes(net, self.x, self.boxes)):
            for r, v in column.items():
                equations[r] += v * bounds[c]
        for i, row in enumerate(block.rows):
            if not self.is_above(row, jacobian, equations, bounds):
                raise Broken(block.at_row(i), 'row')

    def is_above(self, row, jacobian, equations, bounds):
        """Whether the height of a row stands above it."""
        rows = self.block.rows
        if any(k >= len(rows) for k, _ in row.others):
            return False
        made, sizes = {}, {}
        terms = [(m, jacobian[p].items()) for p, m in row.equations]
        terms += [(-c, rows[k].entries) for k, c in row.others] + [(-B40, row.entries)]
        for m, entries in terms:
            for j, v in entries:
                made[j] = made.get(j, 0) + m * v
                sizes[j] = sizes.get(j, 0) + abs(m * v)
        total = sum(abs(c) * rows[k].height for k, c in row.others)
        total += sum(abs(m) * equations[p] for p, m in row.equations)
        total += sum(abs(v) * bounds[j] for j, v in made.items())
        return max(sizes.values()) <= P120 and total < row.height << 40

    def is_bound(self, k, row, bound):
        """Whether a row bounds unknown k so."""
        if not 0 <= row < len(self.block.rows):
            return False
        it = self.block.rows[row]
        (q, pivot), *others = it.entries
        return q == k and sum(abs(v) * self.block.bounds[j][1] for j, v in others) + it.height < abs(pivot) * bound
