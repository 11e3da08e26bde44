"""Settings and trees: right ones, ones at the limits, and damaged ones."""
import struct

from damage import DAMAGE, INTERVAL, LARGE_TREES, LEAVES, NULL, SMALL_TREES, SPECIAL, bytes_changed, cut_or_lengthened, flipped
from edges import any_text, edge_leaf, edge_name, edge_value
from generators import caller_limits, filters, reductions, stamps, trees
from model import lowering, records
from model.limits import CONTROLLER, FLAGS, PLANNER, STR
from model.operators import DYADIC, INSTANT_OR_INTERVAL, MONADIC, NAMES, NUMBER, TEMPORAL
from model.records import SHEET_SETTINGS, encode, settings_record


def numbers(names):
    return [NUMBER[name] for name in names]


AND, EQ, BETWEEN = numbers(('And', 'Eq', 'IsBetween'))
SPANNING = numbers(INSTANT_OR_INTERVAL)
OPEN = ('unbounded',)
SOUP = numbers('Eq And TAfter TDisjoint TEquals TIntersects IsBetween'.split())


WRONG = [*((settings_record(SHEET_SETTINGS), *one) for group in (caller_limits.wrong_and_deep, caller_limits.wrong_and_long) for one in group(CONTROLLER)),
         *caller_limits.wrong_settings(CONTROLLER)]
RULES = [list(map(encode, group)) for group in (
    reductions.monadics(), reductions.few_dyadics(), reductions.instants(), reductions.logic(), reductions.places(), reductions.deep(), reductions.sizes())]
LONG, BOTH_WRONG = list(map(encode, reductions.long())), [tree for _, tree in reductions.wrong()]


class Lowerings:
    """Settings and trees. Each method makes one kind; the answer is (settings, tree)."""

    def __init__(self, r):
        self.r, self.m, self.stamped, self.folding = r, filters.Maker(r, any_text), stamps.Maker(r, any_text), reductions.Maker(r, any_text)

    def settings(self):
        return settings_record(self.m.settings())

    def tree(self, maker=None):
        """One that is accepted, mostly: an operator at the root or any tree."""
        r, m = self.r, maker or self.m
        depth, k = r.choice((0, 1, 1, 1, 2, 2, 3)), r.random()
        if k < .35:
            return m.node(r.choice(DYADIC), depth)
        if k < .6:
            return m.node(r.choice(TEMPORAL), r.choice((0, 1, 1, 2)))
        if k < .7:
            return ('monadic', r.choice(MONADIC), m.tree(depth))
        return m.tree(depth + 1)

    def accepted(self):
        return self.settings(), encode(self.tree())

    def larger(self):
        """Of more levels, up to the limit."""
        r, t = self.r, self.m.tree(self.r.choice((4, 5, 6)))
        for _ in range(r.choice((0, 0, 0, 5, 15, 24))):
            t = r.choice((('monadic', r.choice(MONADIC), t), ('dyadic', r.choice(('And', 'IsLike', 'Plus')), t, ('id', 'a')),
                          ('array', [t]), ('function', 'f', [t])))
        return self.settings(), encode(t)

    def damaged(self, how):
        return self.settings(), DAMAGE[how](self.r, encode(self.tree(self.r.choice((self.m, self.stamped)))))

    def stored(self):
        return self.r.choice(SMALL_TREES)

    def stored_damaged(self):
        settings, tree = self.r.choice(SMALL_TREES)
        return settings, self.r.choice((flipped, bytes_changed, cut_or_lengthened))(self.r, tree or NULL)

    def leaves(self):
        """Leaves at the edges of their rules, in an accepted tree."""
        r = self.r
        leaf = edge_leaf(r) if r.random() < .7 else bytes_changed(r, r.choice(LEAVES)) if r.random() < .5 else r.choice(LEAVES)
        if r.random() < .5:
            leaf = r.choice((records.monadic(r.choice(numbers(('Minus', 'Neg', 'IsNull'))), leaf),
                             records.dyadic(r.choice(numbers(('Eq', 'TAfter', 'IsLike', 'IsInList'))), trees.A, leaf),
                             records.array(leaf, NULL), records.function(b'f', leaf)))
        return self.settings(), leaf

    def texts(self):
        """Strings of any characters, right or ill-formed, one or several in a tree."""
        r = self.r
        some = lambda: records.string(any_text(r).encode() if r.random() < .7 else edge_value(r, 40), r.randrange(FLAGS + 1))
        one = some()
        return self.settings(), r.choice((one, records.dyadic(r.choice(numbers(('Eq', 'Lt', 'IsLike', 'TAfter'))), trees.A, one),
                                          records.array(one, some(), some()), records.function(b'f', some(), one)))

    def apostrophes(self):
        """As many as a Str holds, and texts of about 65,535 bytes of them."""
        r, flags = self.r, self.r.randrange(FLAGS + 1)
        if r.random() < .5:
            return self.settings(), records.string(b"'" * r.choice((1, 2, 3, 64, 2048, 2049, STR - 1, STR, STR, STR + 1)), flags)
        last = "'" * (4032 - r.randrange(4)) + 'x' * r.randrange(3)
        return settings_record(SHEET_SETTINGS), encode(('array', [('str', 3, "'" * STR)] * 7 + [('str', 3, last)]))

    def stamps(self):
        return self.settings(), encode(self.tree(self.stamped))

    def open_ends(self):
        """`..` at either end of intervals, alone, in lists and calls, and such conditions inside an end; among columns, dates and texts like those that
        are written for it."""
        r, inside = self.r, ('array', [OPEN, OPEN])
        for _ in range(r.randint(1, 3)):
            others = ('id', 'a'), ('date', 2024, 2, 29), ('str', 0, r.choice(('A', '-2021-01-01', '..'))), ('function', 'f', [OPEN]), inside
            end = lambda: OPEN if r.random() < .6 else r.choice(others)
            operator = r.choice(TEMPORAL)
            side = lambda: end() if operator in INSTANT_OR_INTERVAL and r.random() < .5 else ('interval', end(), end())
            inside = ('dyadic', operator, side(), side())
        return self.settings(), encode(r.choice((inside, ('array', [inside, OPEN]), ('dyadic', 'Or', inside, OPEN))))

    def stamps_limit(self, limit=PLANNER):
        """Timestamps, written twice, with a text that is at most two bytes shorter or three longer than the limit by one of the two calls that write."""
        r, want = self.r, limit.text + self.r.choice((-2, -1, 0, 0, 1, 1, 2, 3))
        writing, side = r.choice((lowering.RUST, lowering.GEOPACKAGE)), ('interval', ('id', 'a'), ('id', 'b'))
        full = lambda count, size: ('dyadic', 'And', ('dyadic', 'TEquals', ('array', [stamps.STAMP] * count), side), ('str', 0, 'y' * size))
        size = lambda tree: len(lowering.text(SHEET_SETTINGS, tree, writing))
        each, least = size(full(3, 0)) - size(full(2, 0)), size(full(1, 0))
        count = (want - least) // each - r.randrange(4)
        return settings_record(SHEET_SETTINGS), encode(full(count, want - size(full(count, 0))))

    def reducible(self):
        return self.settings(), encode(self.folding.tree(self.r.choice((1, 2, 2, 3, 3, 4, 5))))

    def reductions(self):
        """One of each rule's trees, mostly in the place of an item or of an operand."""
        r, tree = self.r, self.r.choice(self.r.choice(RULES))
        return self.settings(), r.choice((tree, records.array(trees.A, tree), records.monadic(r.choice(trees.MONADIC_NUMBERS), tree),
                                          records.dyadic(r.choice(trees.DYADIC_NUMBERS), tree, r.choice((trees.A, NULL, r.choice(LEAVES))))))

    def reducible_damaged(self):
        return self.settings(), DAMAGE[self.r.choice(list(DAMAGE))](self.r, self.reducible()[1])

    def reductions_sized(self):
        """About as many bytes as a power of two, of trees that reduce and a Str that fills up; sometimes with a 14."""
        r, items = self.r, [self.folding.tree(self.r.choice((1, 2, 3))) for _ in range(self.r.choice((1, 1, 2, 4)))]
        size, used = 2 ** r.randrange(5, 14) + r.choice((-2, -1, 0, 0, 1, 1, 2)), len(encode(('array', items)))
        while size - used - 7 > STR:
            items, used = items + [('str', 0, 'y' * 2000)], used + 2007
        r.shuffle(items)
        last = [('str', 1, 'z' * (size - used - 7))] if size - used >= 7 else []
        return self.settings(), encode(('array', items + last))

    def reductions_long(self):
        """About 32,768 bytes that reduce, in part or to little; some with a byte changed."""
        r, (settings, tree) = self.r, self.tree_limit()
        tree = r.choice((tree, r.choice(LONG)))
        return settings, bytes_changed(r, tree) if r.random() < .1 else tree

    def reductions_wrong(self):
        r, tree = self.r, self.r.choice(BOTH_WRONG)
        return self.settings(), bytes_changed(r, tree) if tree and r.random() < .2 else tree

    def settings_damaged(self):
        how = self.r.choice((flipped, bytes_changed, cut_or_lengthened))
        return how(self.r, self.settings()), self.r.choice((NULL, trees.A, b'', records.record(14)))

    def settings_edges(self):
        r = self.r
        names = [edge_name(r) if r.random() < .3 else b'NC' for _ in range(3)]
        return records.settings_bytes(r.choice((0, 1, 7, 9, 10, 14, 15, 15, 16, 255)), *names), encode(self.tree())

    def random_bytes(self):
        r = self.r
        return self.settings() if r.random() < .9 else r.randbytes(r.randrange(20)), r.randbytes(r.choice((0, 1, 5, 6, 7, 8, 12, 20, 60)))

    def random_records(self, depth=3):
        """Frames that fit, with any kind, operator and body."""
        return self.settings(), self.soup(depth)

    def soup(self, depth):
        r = self.r
        kind = r.choice((2, 3, 4, 5, 6, 7, 8, 8, 9, 10, 10, 10, 11, 12, 13, 13, r.randrange(16)))
        if depth == 0 or kind < 9 or kind > 13:
            size = {2: 1, 3: 9, 5: 4, 6: 7}.get(kind, r.randrange(7))
            some = bytes(r.choice(SPECIAL) if r.random() < .5 else r.randrange(16) for _ in range(size))
            return r.choice(LEAVES) if r.random() < .75 else trees.A if r.random() < .5 else records.record(kind, some)
        below = [self.soup(depth - 1) for _ in range({9: 1, 10: 2, 13: 2}.get(kind, r.randrange(4)))]
        if r.random() < .03:
            below = below[1:] or [NULL, NULL]
        operator = r.choice(trees.MONADIC_NUMBERS) if kind == 9 else r.choice([r.randrange(len(NAMES))] + SOUP)
        head = {9: struct.pack('<H', operator), 10: struct.pack('<H', operator), 11: b'\1f'}.get(kind, b'')
        return records.record(kind, head + b''.join(below))

    def deep(self, limit=PLANNER):
        """Up to two levels fewer or more than the limit, with something right or wrong at the bottom."""
        r = self.r
        t = r.choice((NULL, trees.A, r.choice(LEAVES), records.record(14), records.record(2, b'\2'), b'\0', b'\1\0\0\0\0\0', records.array(),
                      INTERVAL))
        levels = limit.depth + r.choice((-3, -2, -1, -1, 0, 1))
        while levels > 0:
            k = r.randrange(7)
            if k == 6 and levels >= 2:
                t, levels = records.dyadic(r.choice(SPANNING), records.interval(t, trees.B), trees.C), levels - 2
                continue
            t = r.choice((lambda: records.monadic(r.choice(trees.MONADIC_NUMBERS[:5]), t), lambda: records.array(t), lambda: records.array(NULL, t),
                          lambda: records.function(b'f', t),
                          lambda: records.dyadic(AND, t, NULL), lambda: records.dyadic(EQ, NULL, t)))()
            levels -= 1
        return self.settings(), t

    def tree_limit(self, limit=PLANNER):
        """Up to two bytes fewer or more than the limit, right but for the size; sometimes the settings are wrong too, or the last record."""
        r, most = self.r, limit.tree // 8
        size = limit.tree + r.choice((-2, -1, 0, 0, 1, 1, 2))
        items, used = [], 6
        while size - used > most + 17:
            item = encode(self.tree()) if r.random() < .2 else records.string(b'y' * r.randint(most * 3 // 4, most))
            if used + len(item) + 10 > size:
                continue
            items.append(item)
            used += len(item)
        items.append(records.string(b'z' * (size - used - 7)))
        tree = records.array(*items)
        if r.random() < .1:
            tree = tree[:-1] + b'\0'
        return (self.settings() if r.random() < .9 else b''), tree

    def text_limit(self, limit=PLANNER):
        """A text at most two bytes shorter or three longer than the limit by one of the two calls that write, most of it written several times."""
        r, want = self.r, limit.text + self.r.choice((-2, -1, 0, 0, 0, 1, 1, 1, 2, 3))
        g, writing = self.m.settings(), r.choice((lowering.RUST, lowering.GEOPACKAGE))
        t = ('array', [('str', r.randrange(4), 'x' * (limit.text // 17))] * 3)
        for _ in range(2):
            ends = (r.choice((('id', name), ('unbounded',))) for name in 'ab')
            t = ('dyadic', r.choice(('TEquals', 'TDisjoint', 'TIntersects')), t, ('interval', *ends))
        full = lambda n: ('dyadic', 'And', t, ('array', [('str', 0, 'y' * 3700)] * (n // 3710) + [('str', 0, 'y' * (n % 3710))]))
        n = want - len(lowering.text(g, full(0), writing))
        for _ in range(9):    # the filler's own marks count too
            n += want - len(lowering.text(g, full(n), writing))
        return settings_record(g), encode(full(n))

    def doubled_ends(self):
        """Ends that are written twice at each level: texts past every limit from a small tree, or an end that is left out."""
        r, t = self.r, self.m.end(1)
        for _ in range(r.randint(8, 29)):
            ends = (r.choice((('id', name), ('unbounded',), ('null',))) for name in 'bc')
            side = ('interval', *ends) if r.random() < .7 else r.choice((('id', 'd'), ('id', 'd'), ('unbounded',)))
            op = r.choice(INSTANT_OR_INTERVAL if r.random() < .8 else ('TDisjoint',))
            t = ('dyadic', op, t, side) if r.random() < .5 else ('dyadic', op, side, t)
            if r.random() < .1:
                t = ('dyadic', r.choice(('TAfter', 'TBefore')), ('id', 'a'), ('interval', t, ('id', 'e')))
        return self.settings(), encode(t)

    def long_and_wrong(self):
        """A text past 65,535 bytes, and beside it what is refused before a text is counted; or the settings are wrong."""
        r, t = self.r, ('id', 'a')
        for _ in range(r.randint(13, 28)):
            t = ('dyadic', 'TEquals', t, ('interval', ('id', 'b'), ('id', 'c')))
        wrong = r.choice((INTERVAL, INTERVAL, records.dyadic(BETWEEN, trees.A, records.array(trees.A)), records.record(14), records.ident(b'1'), b'\0'))
        sides = r.choice(((encode(t), wrong), (wrong, encode(t))))
        return (self.settings() if r.random() < .9 else b''), records.dyadic(AND, *sides)

    def controller_deep(self):
        return self.deep(CONTROLLER)

    def controller_levels(self):
        """Accepted trees, put deeper by any operators."""
        return self.settings(), encode(caller_limits.deeper(self.r, self.tree(), CONTROLLER.depth + self.r.choice((-1, 0, 0, 1, 2))))

    def controller_tree(self):
        return self.tree_limit(CONTROLLER)

    def controller_text(self):
        return self.text_limit(CONTROLLER)

    def controller_stamps(self):
        return self.stamps_limit(CONTROLLER)

    def controller_wrong(self):
        """Past a limit of the controller and wrong besides; some with a byte changed."""
        r = self.r
        settings, tree, _ = r.choice(WRONG)
        return (settings if r.random() < .9 else b''), (bytes_changed(r, tree) if tree and r.random() < .2 else tree)

    def empty(self):
        r = self.r
        return r.choice((b'', self.settings(), settings_record(SHEET_SETTINGS))), r.choice((b'', b'', NULL))

    def too_long(self):
        return self.r.choice((self.settings(), b'')), bytes(PLANNER.tree + self.r.choice((1, 2, 1000, 33000)))

    def large(self):
        return self.r.choice(LARGE_TREES)
