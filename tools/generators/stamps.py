"""Trees with timestamps and open ends in every place, and filters and rows about the values of a GeoPackage's DATETIME columns (document 02, slips 4 and
5)."""
import itertools

from model.operators import BETWEEN, DYADIC, INSTANT_OR_INTERVAL, MONADIC, RELATIONS, TEMPORAL
from model.records import children

from . import filters

STAMP, LATER, DAY, OPEN, NULL = ('timestamp', 2024, 2, 29, 12, 0, 0), ('timestamp', 2024, 2, 29, 12, 0, 1), ('date', 2024, 2, 29), ('unbounded',), ('null',)
A, B, C, D = (('id', name) for name in 'abcd')
LIKE_STAMPS = [    # texts that look like timestamps in either writing, or like parts of them
    '2024-02-29T12:00:00', '2024-02-29T12:00:00.000Z', "'2024-02-29T12:00:00'", "it's 2024-02-29T12:00:00", "2024-02-29T12:00:00'", '2024-02-29', '.000Z']


def holds(tree, kind):
    """Whether a record of the kind stands in the tree."""
    return tree[0] == kind or any(holds(child, kind) for child in children(tree))


def ends_open(tree):
    """Whether an interval of the tree has an open end."""
    return tree[0] == 'interval' and tree[2] == OPEN or any(map(ends_open, children(tree)))


class Maker(filters.Maker):
    """Every other leaf or end is a timestamp, and some are texts that look like one."""

    def leaf(self):
        k = self.r.random()
        if k < .5:
            return self.stamp()
        return ('str', self.r.randrange(4), self.r.choice(LIKE_STAMPS)) if k < .6 else super().leaf()

    def end(self, depth):
        return self.stamp() if self.r.random() < .5 else super().end(depth)


def corners():
    """A timestamp alone, below every operator, in lists, calls and lists of lists; and every temporal operator with one among its ends."""
    yield from (STAMP, ('array', [STAMP]), ('array', [A, STAMP, ('array', [STAMP, DAY])]), ('function', 'f', [STAMP, A, ('array', [STAMP])]))
    yield from (('str', flags, text) for flags in range(4) for text in LIKE_STAMPS)
    yield from (('monadic', operator, tree) for operator in MONADIC for tree in (STAMP, ('dyadic', 'Eq', A, STAMP)))
    for operator in DYADIC:
        if operator in BETWEEN:
            yield from (('dyadic', operator, x, ('array', [y, STAMP])) for x in (A, STAMP) for y in (DAY, LATER, ('array', [STAMP])))
        elif operator not in TEMPORAL:
            others = A, STAMP, DAY, ('str', 0, LIKE_STAMPS[0]), ('array', [STAMP, LATER]), ('array', [A, STAMP])
            yield from (('dyadic', operator, *pair) for x in others for pair in ((x, STAMP), (STAMP, x)))
    yield from (tree for tree in filters.temporal_corners() if holds(tree, 'timestamp'))


def open_corners():
    """No timestamp: every temporal operator with `..` as an end, a start or both, and `..` alone, below operators, in lists, calls, and inside an end."""
    for operator in TEMPORAL:
        yield from (('dyadic', operator, *pair) for pair in sides(((A, OPEN, OPEN, B), (OPEN, OPEN, A, OPEN), (A, OPEN, DAY, B), (A, B, NULL, OPEN))))
        if operator in INSTANT_OR_INTERVAL:
            yield from (('dyadic', operator, *pair) for pair in ((OPEN, OPEN), (OPEN, ('interval', A, OPEN)), (('interval', OPEN, OPEN), A)))
    yield from (OPEN, ('array', [OPEN, A, ('array', [OPEN])]), ('function', 'f', [OPEN, A]), ('dyadic', 'Eq', A, OPEN), ('dyadic', 'IsLike', OPEN, OPEN))
    yield from (('dyadic', 'IsBetween', OPEN, ('array', [OPEN, OPEN])), ('dyadic', 'IsInList', A, ('array', [OPEN, DAY])), ('monadic', 'CaseI', OPEN))
    inside = [('array', [OPEN]), ('function', 'f', [OPEN]), ('dyadic', 'TEquals', OPEN, OPEN)]
    inside.append(('dyadic', 'TMeets', ('interval', A, OPEN), ('interval', OPEN, B)))
    yield from (('dyadic', 'TAfter', A, ('interval', B, end)) for end in inside)
    yield from (('dyadic', 'TAfter', A, ('interval', B, ('str', 0, text))) for text in ('A', '-2021-01-01', '..', "'A'"))


def doubled(size):
    """Ends that are written twice at each of eleven levels, beside a Str: a text of 65,514 bytes more than the Str in the second writing, of 85,984 in
    the first."""
    tree = A
    for _ in range(11):
        tree = ('dyadic', 'TEquals', tree, ('interval', OPEN, OPEN))
    return ('dyadic', 'And', tree, ('str', 0, 'y' * size))


def many(count, name):
    """An array of so many timestamps and a name: a text of 23 bytes for each and of 28 in the second writing, the name and two bytes more."""
    return ('array', [STAMP] * count + [('id', name)])


# ---- filters and rows


VALUES = [b'2024-02-29T%sZ' % text for text in (b'11:59:59.999', b'12:00:00.000', b'12:00:00.001', b'12:00:00.999', b'12:00:01.000', b'12:00:01.001')]
MIXED = [*VALUES, b'2024-02-29', b'2024-03-01', b'2024-02-29T12:00:00', b'2024-02-29T12:00:01', b'2024-02-29T12:00:00Z', None]


def sides(ends):
    """Pairs of intervals, each of two of the ends."""
    for w, x, y, z in ends:
        yield ('interval', w, x), ('interval', y, z)


def predicates():
    """Temporal predicates and comparisons over the columns a to d and written timestamps: of these none writes a date, and `..` is only a start here."""
    both = list(sides(((A, B, C, D), (A, B, STAMP, LATER), (STAMP, LATER, C, D), (OPEN, B, STAMP, D), (STAMP, B, OPEN, LATER), (STAMP, LATER, STAMP, LATER))))
    single = [(A, STAMP), (STAMP, A), (A, C), (STAMP, LATER), (A, ('interval', STAMP, LATER)), (('interval', A, B), STAMP), (STAMP, ('interval', C, D)),
              (('interval', OPEN, B), STAMP), (A, ('interval', OPEN, LATER))]
    for operator in TEMPORAL:
        yield from (('dyadic', operator, *pair) for pair in both + (single if operator in INSTANT_OR_INTERVAL else []))
    for operator in RELATIONS:
        yield from (('dyadic', operator, *pair) for pair in ((A, STAMP), (LATER, A), (A, B), (STAMP, STAMP)))


def open_ended():
    """Temporal predicates in which `..` is an end: of stays that have not ended, and of intervals without any end."""
    both = list(sides(((A, OPEN, C, D), (A, B, STAMP, OPEN), (A, OPEN, C, OPEN), (STAMP, OPEN, OPEN, D), (OPEN, OPEN, C, D), (A, B, OPEN, OPEN))))
    single = [(A, ('interval', STAMP, OPEN)), (('interval', A, OPEN), STAMP), (A, ('interval', OPEN, OPEN)), (('interval', OPEN, OPEN), STAMP)]
    for operator in TEMPORAL:
        yield from (('dyadic', operator, *pair) for pair in both + (single if operator in INSTANT_OR_INTERVAL else []))


def shapes():
    """Every temporal operator with a column, a timestamp or `..` at each end of its intervals; where it takes instants, with a column and a timestamp."""
    for operator in TEMPORAL:
        left, right = ([('interval', *pair) for pair in itertools.product((x, STAMP, OPEN), (y, LATER, OPEN))]
                       + [x, STAMP] * (operator in INSTANT_OR_INTERVAL) for x, y in ((A, B), (C, D)))
        yield from (('dyadic', operator, *pair) for pair in itertools.product(left, right))


def outside():
    """Filters that write a date, a NULL, `..` alone, or a text that looks like a timestamp."""
    for operator in TEMPORAL:
        yield from (('dyadic', operator, *pair) for pair in sides(((A, B, DAY, LATER), (A, OPEN, DAY, D), (A, B, NULL, STAMP))))
        if operator in INSTANT_OR_INTERVAL:
            yield from (('dyadic', operator, *pair) for pair in ((A, DAY), (A, OPEN), (A, NULL), (STAMP, DAY), (OPEN, ('interval', A, OPEN))))
    for operator, text in itertools.product(RELATIONS, LIKE_STAMPS):
        yield ('dyadic', operator, A, ('str', 0, text))
        yield ('dyadic', operator, STAMP, ('str', 0, text))


def joined(r, count):
    """And, Or and Neg of predicates."""
    some = [*predicates(), *open_ended()]
    for _ in range(count):
        tree = r.choice(some)
        for _ in range(r.choice((1, 1, 2, 3))):
            tree = r.choice((('monadic', 'Neg', tree), ('dyadic', 'And', tree, r.choice(some)), ('dyadic', 'Or', r.choice(some), tree),
                             ('dyadic', 'Or', tree, ('monadic', 'IsNull', r.choice((A, B))))))
        yield tree


def cells(r, values, nulls=0):
    """The columns a to d, of these values: mostly a to b and c to d are intervals that end where they start, or later."""
    drawn = [[r.choice(values) for _ in range(2)] for _ in range(2)]
    found = [value for pair in drawn for value in (sorted(pair) if None not in pair and r.random() < .8 else pair)]
    return [(name, None if r.random() < nulls else value) for name, value in zip((b'a', b'b', b'c', b'd'), found)]
