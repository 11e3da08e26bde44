"""Accepted trees with their settings: random ones of every operator, and every temporal operator over every kind of end."""
import calendar
import random

from model.limits import FLAGS, MANTISSA, PLANNER, PRECISION
from model.names import is_name
from model.operators import BETWEEN, DYADIC, INSTANT_OR_INTERVAL, MONADIC, TEMPORAL
from model.records import SHEET_SETTINGS, Settings, encode, levels

STR_LETTERS = ''.join(chr(code) for code in range(0x20, 0x7f) if code != ord("'"))    # of which the Rust's text is SQLite's


def plain_text(r):
    return ''.join(r.choice(STR_LETTERS) for _ in range(r.choice([0, 1, 3, 9])))


class Maker:
    """`r` may be one that others use too. `some_text`: makes the text of a Str."""

    def __init__(self, r, some_text=plain_text):
        self.r, self.some_text = r, some_text

    def name(self, most=12):
        r = self.r
        while True:
            n = r.choice([1, 2, 5, most]) if r.random() < .95 else 64
            made = r.choice('abcxyzABZ_') + ''.join(r.choice('abcxyzABZ_0189') for _ in range(n - 1))
            if is_name(made.encode()):
                return made

    def day(self):
        year, month = self.r.choice([1, 4, 1900, 2000, 2021, 2024, 9999]), self.r.randint(1, 12)
        return year, month, self.r.randint(1, calendar.monthrange(year, month)[1])

    def stamp(self):
        r = self.r
        return ('timestamp',) + self.day() + (r.choice([0, 9, 23]), r.choice([0, 7, 59]), r.choice([0, 30, 59]))

    def leaf(self):
        r, k = self.r, self.r.randrange(11)
        if k < 2:
            return (('null', 'unbounded')[k],)
        if k == 2:
            return ('bool', r.randrange(2))
        if k in (3, 4):
            m = r.choice([0, 1, -1, 5, 1500, MANTISSA, -MANTISSA, 10 ** r.randrange(15), r.randrange(-10 ** 6, 10 ** 6),
                          r.randrange(-10 ** 14, 10 ** 14)])
            return ('num', m, r.randrange(10))
        if k == 5:
            return ('str', r.randrange(FLAGS + 1), self.some_text(r))
        if k == 6:
            return ('date',) + self.day()
        if k == 7:
            return self.stamp()
        if k == 8:
            return ('spatial', r.choice([0, 4326, 2 ** 32 - 1]), r.choice(['POINT (1 2)', 'LINESTRING(0 0,1.5 -2)', 'a']))
        return ('id', self.name())

    def end(self, depth):
        k = self.r.randrange(6)
        if k < 2:
            return (('null', 'unbounded')[k],)
        if k == 2:
            return ('date',) + self.day()
        return ('id', self.name()) if k == 3 else self.tree(depth)

    def operand(self, operator, depth):
        if operator not in INSTANT_OR_INTERVAL or self.r.random() < .5:
            return ('interval', self.end(depth - 1), self.end(depth - 1))
        return self.end(depth)

    def items(self, depth, count=None):
        count = self.r.choice([0, 1, 2, 3]) if count is None else count
        return [self.tree(depth) for _ in range(count)]

    def node(self, operator, depth):
        if operator in TEMPORAL:
            return ('dyadic', operator, self.operand(operator, depth), self.operand(operator, depth))
        if operator in BETWEEN:
            return ('dyadic', operator, self.tree(depth), ('array', self.items(depth, 2)))
        return ('dyadic', operator, self.tree(depth), self.tree(depth))

    def tree(self, depth):
        r = self.r
        if depth <= 0 or r.random() < .3:
            return self.leaf()
        k = r.randrange(10)
        if k < 2:
            return ('monadic', r.choice(MONADIC), self.tree(depth - 1))
        if k < 8:
            return self.node(r.choice(DYADIC), depth - 1)
        return ('function', self.name(), self.items(depth - 1)) if k == 8 else ('array', self.items(depth - 1))

    def deeper(self, tree, count):
        for _ in range(count):
            tree = self.r.choice([('monadic', 'Neg', tree), ('array', [tree]), ('dyadic', 'And', tree, ('id', 'a')), ('function', 'f', [tree])])
        return tree

    def settings(self):
        if self.r.random() < .5:
            return SHEET_SETTINGS
        return Settings(self.r.randrange(PRECISION + 1), self.name(), self.name(), self.name())


def accepted(count, seed, some_text=plain_text, kind=Maker):
    """Settings and tree, `count` times but for those past a limit: each operator at the root in turn, then as many of any kind, and so on."""
    maker = kind(random.Random(seed), some_text)
    roots = [('monadic', name) for name in MONADIC] + [('dyadic', name) for name in DYADIC]
    for k in range(count):
        turn, depth = k % (2 * len(roots)), maker.r.choice([1, 1, 2, 3, 4, 6])
        kind, operator = roots[turn] if turn < len(roots) else (None, None)
        tree = ('monadic', operator, maker.tree(depth)) if kind == 'monadic' else maker.node(operator, depth) if kind else maker.tree(depth)
        if k % 97 == 0:
            tree = maker.deeper(tree, 30 - depth)
        settings = maker.settings()
        if len(encode(tree)) <= PLANNER.tree and levels(tree) <= PLANNER.depth:
            yield settings, tree


def corners():
    """Instants and intervals at every temporal operator with every kind of end, every pair of flags, every operator below a collation."""
    yield from ((SHEET_SETTINGS, tree) for tree in temporal_corners())
    for f in range(FLAGS + 1):
        for h in range(FLAGS + 1):
            yield SHEET_SETTINGS, ('dyadic', 'Eq', ('str', f, 'x'), ('str', h, 'y'))
    for outer in ('CaseI', 'AccentI'):
        for inner in MONADIC:
            yield SHEET_SETTINGS, ('monadic', outer, ('monadic', inner, ('id', 'a')))


def temporal_corners():
    ends = [('id', 'a'), ('date', 2024, 2, 29), ('unbounded',), ('null',), ('timestamp', 2024, 2, 29, 1, 2, 3),
            ('dyadic', 'Plus', ('id', 'b'), ('num', 1, 0))]
    p, q = ('id', 'p'), ('id', 'q')
    for operator in TEMPORAL:
        for x in ends:
            for y in ends:
                yield ('dyadic', operator, ('interval', x, y), ('interval', y, x))
                yield ('dyadic', operator, ('interval', p, x), ('interval', y, q))
                if operator in INSTANT_OR_INTERVAL:
                    yield ('dyadic', operator, x, y)
                    yield ('dyadic', operator, x, ('interval', y, q))
                    yield ('dyadic', operator, ('interval', p, x), y)
