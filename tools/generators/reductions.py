"""Trees that reduce (document 02, slip 8): each rule over operands of every sort, in every place, and random ones of literals, Null and Bool."""
import itertools

from model.limits import PLANNER, STR
from model.operators import BETWEEN, DYADIC, INSTANT_OR_INTERVAL, MONADIC, RELATIONS, TEMPORAL
from model.records import array, dyadic, encode, ident, interval, null, record

from . import filters

NULL, OPEN, NO, YES = ('null',), ('unbounded',), ('bool', 0), ('bool', 1)
A, B = ('id', 'a'), ('id', 'b')
ONE, ZERO, X, DAY, STAMP = ('num', 15, 1), ('num', 0, 3), ('str', 0, 'x'), ('date', 2024, 2, 29), ('timestamp', 2024, 2, 29, 0, 0, 0)
PLACE = ('spatial', 4326, 'POINT (1 2)')
LITERALS = [OPEN, YES, ONE, X, DAY, STAMP, PLACE]    # one of each kind that `as_literal` takes, beside Null
OTHERS = [A, ('monadic', 'Neg', A), ('dyadic', 'Plus', A, ONE), ('function', 'f', []), ('array', []), ('array', [ONE])]
SORTS = [NULL, *LITERALS, *OTHERS]
SPAN = ('interval', A, DAY)
CONSTANT = ('dyadic', 'Eq', ONE, X)    # a 14
WHOLE = 'And Or Eq TAfter TEquals'.split()    # the operators that `few_dyadics` has over every pair
INSTANTS = [OPEN, *(tree for fields in (    # neighbours in each field, the bytes of the year among them; a Date, midnight, and the second after it
    (2024, 2, 29), (2024, 2, 28), (2024, 3, 1), (2023, 12, 31), (2025, 1, 1), (255, 1, 1), (256, 1, 1), (1, 1, 1), (9999, 12, 31)) for tree in (
        ('date', *fields), *(('timestamp', *fields, *time) for time in ((0, 0, 0), (0, 0, 1), (12, 0, 0), (23, 59, 59))))),
            ('timestamp', 2024, 2, 29, 0, 1, 0), ('timestamp', 2024, 2, 29, 1, 0, 0), ('timestamp', 2024, 2, 29, 11, 59, 59)]
NEIGHBOURS = [OPEN, *(('date', *fields) for fields in ((2024, 2, 29), (2024, 2, 28), (2024, 3, 1), (255, 12, 31), (256, 1, 1))),
              *(('timestamp', 2024, 2, 29, *fields) for fields in ((0, 0, 0), (0, 0, 1), (12, 0, 0), (23, 59, 59))), ('timestamp', 256, 1, 1, 0, 0, 0)]


class Maker(filters.Maker):
    """Many literals, Null and Bool; And, Or and Neg of them; CaseI and AccentI one inside the other; instants of few days against each other. `calm`: how
    often an operator other than And and Or has a column beside it, which keeps it from a 14."""
    calm = .3

    def day(self):
        return self.r.choice([(2024, 2, 28), (2024, 2, 29), (2024, 3, 1), (1, 1, 1), super().day()])

    def stamp(self):
        return ('timestamp',) + self.day() + self.r.choice([(0, 0, 0), (0, 0, 0), (12, 0, 0), (0, 0, 1), (23, 59, 59)])

    def instant(self):
        return self.r.choice([OPEN, ('date',) + self.day(), self.stamp()])

    def leaf(self):
        k = self.r.random()
        if k < .5:
            return self.r.choice([NULL, NULL, NO, YES, ZERO, ('num', 0, 0), ONE])
        return ('str', self.r.randrange(4), self.some_text(self.r)) if k < .6 else super().leaf()

    def node(self, operator, depth):
        if operator in ('And', 'Or') or operator in TEMPORAL or operator in BETWEEN or self.r.random() > self.calm:
            return super().node(operator, depth)
        sides = [('id', self.name()), self.tree(depth)]
        self.r.shuffle(sides)
        return ('dyadic', operator, *sides)

    def tree(self, depth):
        r, k = self.r, self.r.random()
        if depth <= 0 or k < .1:
            return self.leaf()
        if k < .3:
            return ('dyadic', r.choice(['And', 'Or']), self.tree(depth - 1), self.tree(depth - 1))
        if k < .5:
            return ('monadic', r.choice(MONADIC), self.tree(depth - 1))
        if k < .6:
            return self.folded(r.randrange(1, 5), self.tree(depth - 4))
        if k < .7:
            return ('dyadic', r.choice(INSTANT_OR_INTERVAL), self.instant(), self.instant())
        return super().tree(depth)

    def folded(self, count, tree):
        """So many of CaseI and AccentI, or of Minus, over a tree, mostly of a Str or a number."""
        over = self.r.choice([('CaseI', 'AccentI'), ('CaseI', 'AccentI'), ('Minus',)])
        if self.r.random() < .6:
            tree = self.r.choice([X, A]) if over[1:] else self.r.choice([ZERO, ONE, A])
        for _ in range(count):
            tree = ('monadic', self.r.choice(over), tree)
        return tree


class TimeFilters:
    """Time filters (document 01, "Truth") with much to reduce. `kinds`: of the written instants, date or timestamp or both; `lone`: what may be a whole
    operand of a temporal operator besides, Null or Unbounded."""

    def __init__(self, r, kinds, lone=()):
        self.r, self.kinds, self.lone = r, kinds, lone

    def instant(self):
        day = self.r.choice([(2024, 2, 28), (2024, 2, 29), (2024, 3, 1)])
        return ('date', *day) if self.r.choice(self.kinds) == 'date' else ('timestamp', *day, *self.r.choice([(0, 0, 0), (0, 0, 0), (12, 0, 0)]))

    def end(self):
        return self.r.choice([('id', self.r.choice('abcd')), self.instant(), OPEN])

    def operand(self):
        k = self.r.random()
        return self.instant() if k < .5 else ('id', self.r.choice('abcd')) if k < .7 else ('interval', self.end(), self.end())

    def temporal(self):
        if self.r.random() < .2:
            return ('dyadic', self.r.choice(TEMPORAL), ('interval', self.end(), self.end()), ('interval', self.end(), self.end()))
        sides = [self.operand(), self.operand()]
        if self.lone and self.r.random() < .5:
            sides[self.r.randrange(2)] = self.r.choice(self.lone)
        return ('dyadic', self.r.choice(INSTANT_OR_INTERVAL), *sides)

    def tree(self, depth):
        r, k = self.r, self.r.random()
        if depth and k < .35:
            return ('dyadic', r.choice(('And', 'Or')), self.tree(depth - 1), self.tree(depth - 1))
        if depth and k < .55:
            return ('monadic', 'Neg', self.tree(depth - 1))
        column = ('id', r.choice('abcd'))
        if k > .95:
            return ('monadic', r.choice(('IsNull', 'IsNotNull')), column)
        if k > .9:
            return ('dyadic', r.choice(RELATIONS), *r.sample([column, self.instant()], 2))
        return r.choice((NO, YES)) if k > .8 else self.temporal()


# ---- every rule over operands of every sort


def monadics():
    """Each operator over each sort, over each operator over each sort, and chains of CaseI and AccentI, Minus and Neg over a leaf."""
    leaves = [*SORTS, NO, ZERO, *(('str', flags, 'é') for flags in range(1, 4))]
    yield from (('monadic', operator, tree) for operator in MONADIC for tree in leaves)
    yield from (('monadic', outer, ('monadic', inner, tree)) for outer in MONADIC for inner in MONADIC for tree in leaves)
    for count in (3, 4, 5):
        for over in itertools.product(('CaseI', 'AccentI'), repeat=count):
            yield from (chain(over, tree) for tree in (X, A, ('str', 1, 'x'), ('str', 2, 'x'))[:4 if count == 3 else 2])


def chain(over, tree):
    for operator in reversed(over):
        tree = ('monadic', operator, tree)
    return tree


def dyadics(operators=DYADIC):
    """Each operator over each pair of sorts that 7 does not refuse."""
    for operator in operators:
        if operator in BETWEEN:
            yield from (('dyadic', operator, x, ('array', [y, z])) for x in SORTS for y, z in ((A, B), (x, NULL), (NULL, ONE), (ZERO, A)))
        elif operator in INSTANT_OR_INTERVAL:
            yield from (('dyadic', operator, *pair) for pair in itertools.product([*SORTS, SPAN], repeat=2))
        elif operator in TEMPORAL:
            yield from (('dyadic', operator, ('interval', x, y), SPAN) for x, y in itertools.product(SORTS[:3] + SORTS[8:10], repeat=2))
        else:
            yield from (('dyadic', operator, *pair) for pair in itertools.product([*SORTS, NO], repeat=2))


def few_dyadics():
    """Of those some of each operator, and all of WHOLE."""
    yield from dyadics(WHOLE)
    for k, operator in enumerate(name for name in DYADIC if name not in WHOLE):
        yield from itertools.islice(dyadics([operator]), k % 11, None, 11)


def instants(some=INSTANTS):
    yield from (('dyadic', operator, *pair) for operator in INSTANT_OR_INTERVAL for pair in itertools.product(some, repeat=2))



def logic():
    """And, Or and Neg over Null, false, true and a column, three deep."""
    leaves = NULL, NO, YES, A
    two = [('dyadic', operator, *pair) for operator in ('And', 'Or') for pair in itertools.product(leaves, repeat=2)]
    yield from two
    yield from (('monadic', operator, tree) for operator in ('Neg', 'IsNull', 'IsNotNull') for tree in two)
    for operator, tree, leaf in itertools.product(('And', 'Or', 'Eq'), two, leaves):
        yield from (('dyadic', operator, tree, leaf), ('dyadic', operator, leaf, tree))


def places():
    """What reduces, and a 14, in each place of a tree."""
    for tree in (('monadic', 'Minus', ONE), ('monadic', 'Neg', NULL), ('dyadic', 'TEquals', DAY, STAMP), ('dyadic', 'Eq', A, NULL),
                 chain(('CaseI', 'AccentI'), X), chain(('CaseI', 'CaseI'), A), CONSTANT):
        for count in (1, 2, 3, 4):
            for at in range(count):
                items = [A] * at + [tree] + [B] * (count - 1 - at)
                yield from (('array', items), ('function', 'f', items), ('dyadic', 'IsInList', A, ('array', items)))
        yield from (('array', [tree] * 3), ('array', [('array', [tree]), A]), ('function', 'f', [('function', 'g', [tree]), tree]))
        yield from (('dyadic', operator, *pair) for operator in ('Eq', 'And', 'TAfter') for pair in ((tree, A), (A, tree), (tree, tree)))
        for left in (A, tree):
            yield from (('dyadic', 'IsNotBetween', left, ('array', bounds)) for bounds in ((tree, A), (A, tree), (tree, tree)))
        for operator in ('TAfter', 'TMeets'):
            four = [[tree if k == at else A for k in range(4)] for at in range(4)]
            yield from (('dyadic', operator, ('interval', *ends[:2]), ('interval', *ends[2:])) for ends in four)
        yield from (('monadic', operator, ('monadic', operator, tree)) for operator in MONADIC)


# ---- limits: as records


def deep(levels=PLANNER.depth):
    """So many levels of each kind that holds records, over what reduces."""
    wraps = [lambda t, o=operator: ('monadic', o, t) for operator in MONADIC]
    wraps += [lambda t: ('array', [t]), lambda t: ('function', 'f', [A, t]), lambda t: ('dyadic', 'And', t, A), lambda t: ('dyadic', 'Or', NULL, t),
              lambda t: ('dyadic', 'Eq', A, t), lambda t: ('dyadic', 'TEquals', DAY, t), lambda t: ('dyadic', 'IsBetween', A, ('array', [t, A]))]
    for wrap in wraps:
        for tree in (NULL, YES, ONE, ZERO, X, STAMP, A):
            while _levels(wrap(tree)) <= levels:
                tree = wrap(tree)
            yield tree
    for two in itertools.product(('CaseI', 'AccentI'), repeat=2):
        yield from (chain((two * levels)[:levels - 1], tree) for tree in (X, A, ('str', 3, ''), NULL))


def _levels(tree):
    inside = tree[-1] if tree[0] in ('array', 'function') else tree[2:] if tree[0] in ('monadic', 'dyadic') else ()
    return 1 + max(map(_levels, inside), default=0)


def filled(size, *items):
    """An Array of that many bytes as a record: these items, the last of them at its end, and strings before it."""
    strings, left = [], size - len(encode(('array', items)))
    while left > STR:
        strings.append(('str', len(strings) % 4, 'y' * 4000))
        left -= 4007
    return ('array', [*items[:-1], *strings, ('str', 0, 'z' * (left - 7)), items[-1]])


def sizes(most=4096):
    """Trees of about as many bytes as each power of two from 32 on: one byte fewer to one more, as they are and with what reduces first and last."""
    size = 32
    while size <= most:
        for n in (size - 1, size, size + 1):
            yield filled(n, A)
            if n > 60:
                yield filled(n, ('monadic', 'Neg', NULL), ('monadic', 'Minus', ONE))
        size *= 2


def long():
    """32,768 bytes: with what reduces first and last, with a 14 last, beside Null; 5,460 items; a chain over a long string."""
    yield from (filled(PLANNER.tree, ('monadic', 'Neg', NULL), ('monadic', 'Minus', ONE)), filled(PLANNER.tree, CONSTANT))
    yield ('dyadic', 'Eq', filled(PLANNER.tree - 14, A), NULL)
    yield ('array', [NULL] * 5460)
    yield ('array', [('monadic', 'Neg', YES)] * 2184)
    yield chain(('CaseI', 'AccentI') * 15, ('str', 0, 'y' * STR))


def wrong():
    """Wrong bytes with the refusal that comes first, where a 14 stands in the tree besides; the longest tree and one byte more."""
    constant, apart = encode(CONSTANT), interval(null(), null())
    for number, bad in ((3, b'\0'), (3, b'\1\0\0\0\0\0'), (5, record(14)), (5, dyadic(7, ident(b'a'), ident(b'b'))), (6, ident(b'order')),
                        (6, record(2, b'\2')), (7, apart), (7, dyadic(47, ident(b'a'), ident(b'b'))), (7, dyadic(28, ident(b'a'), apart))):
        yield from ((number, tree) for tree in (array(bad), array(constant, bad), array(bad, constant) if bad != b'\0' else constant + bad))
        yield from ((number, dyadic(14, *pair)) for pair in ((constant, bad), (bad, constant)))
    past = null()
    for _ in range(PLANNER.depth):
        past = array(past)
    yield from ((4, past), (4, array(constant, past)), (6, array(ident(b'1'), past)), (3, b''), (3, constant + b'\0'), (3, constant[:-1]))
    longer = encode(filled(PLANNER.tree + 1, CONSTANT))
    yield from ((2, longer), (14, constant), (14, array(constant, constant)))
