"""Settings and trees as bytes, right and wrong, at the edges of every rule of document 01 ("Records", refusals 1 to 7): pairs, group by group."""
import random
import struct

from model.limits import MANTISSA, NAME, PLANNER, SPATIAL, STR
from model.names import WORDS
from model.operators import BETWEEN, DYADIC, MONADIC, NUMBER, TEMPORAL
from model.records import (SHEET_SETTINGS, array, boolean, counted, date, dyadic, function, ident, interval, monadic, null, num, record,
                           settings_bytes, settings_record, spatial, string, timestamp, unbounded)

from .edits import records_of, resized

NULL, UNBOUNDED = null(), unbounded()
A, B, C = ident(b'a'), ident(b'b'), ident(b'c')
SETTINGS = settings_record(SHEET_SETTINGS)
MONADIC_NUMBERS, DYADIC_NUMBERS = [NUMBER[name] for name in MONADIC], [NUMBER[name] for name in DYADIC]
AND, EQ, NEG, TAFTER, TDISJOINT, TCONTAINS, IS_BETWEEN = (NUMBER[name] for name in 'And Eq Neg TAfter TDisjoint TContains IsBetween'.split())


def under(settings, trees):
    return [(settings, tree) for tree in trees]


def leaves():
    """One right body of each kind without records."""
    return [NULL, UNBOUNDED, boolean(0), boolean(1), num(-5, 1), string(b'x'), date(2024, 2, 29), timestamp(2024, 2, 29, 23, 59, 59),
            spatial(4326, b'POINT (1 2)'), A]


def whole():
    """One right tree of each kind, and a filter with most of them."""
    return leaves() + [
        monadic(NEG, boolean(1)), dyadic(EQ, A, num(1500, 2)), function(b'f', A, NULL), array(A, num(1), string(b'q')),
        dyadic(TAFTER, interval(A, B), interval(C, UNBOUNDED)),
        dyadic(AND, dyadic(IS_BETWEEN, A, array(num(1), num(2))), monadic(NUMBER['IsNull'], function(b'f'))),
        dyadic(NUMBER['Or'], dyadic(NUMBER['SWithin'], A, spatial(1, b'P')),
               dyadic(NUMBER['TIntersects'], date(1, 1, 1), interval(UNBOUNDED, timestamp(9999, 12, 31, 0, 0, 0))))]


# ---- the groups; those that always have the usual settings give trees alone


def fields():
    for kind in (0, 1):
        yield record(kind, b'\0')
    for body in (b'', b'\0\0', b'\2', b'\xff'):
        yield record(2, body)
    top = MANTISSA + 1
    for m in (0, 1, -1, top - 1, 1 - top, top, -top, top + 1, -top - 1, 2 ** 63 - 1, -2 ** 63, 2 ** 62, -2 ** 62):
        for s in (0, 1, 9, 10, 255):
            yield num(m, s)
    yield record(3, bytes(8))
    yield record(3, bytes(10))
    for flags in (0, 1, 2, 3, 4, 255):
        for size in (0, 1, STR - 1, STR, STR + 1) if flags in (0, 3) else (0, 1):
            yield string(b'z' * size, flags)
    yield record(4)
    for b in range(256):
        yield string(bytes([b]))
        yield spatial(0, bytes([b]))
        yield ident(bytes([b]))
        yield ident(b'a' + bytes([b]))
    for size in (0, 1, SPATIAL - 1, SPATIAL, SPATIAL + 1):
        yield spatial(2 ** 32 - 1, b'(' * size)
    for size in range(5):
        yield record(7, bytes(size))


def dates():
    for y in (0, 1, 4, 100, 400, 1899, 1900, 1904, 1999, 2000, 2001, 2023, 2024, 2100, 2400, 9996, 9999, 10000, 65535):
        for m in (0, 1, 2, 3, 12, 13, 255):
            for d in (0, 1, 28, 29, 30, 31, 32, 255):
                yield date(y, m, d)
    for m in range(14):
        for d in (28, 29, 30, 31, 32):
            yield date(2023, m, d)
    for h in (0, 23, 24, 255):
        for i in (0, 59, 60, 255):
            for s in (0, 59, 60, 255):
                yield timestamp(2000, 2, 29, h, i, s)
    yield timestamp(1900, 2, 29, 0, 0, 0)
    for size in (0, 3, 5, 6, 8):
        yield record(5, date(2024, 2, 29)[6:].ljust(size, b'\1')[:size])
        yield record(6, timestamp(2024, 2, 29, 1, 1, 1)[6:].ljust(size, b'\1')[:size])


def name_rules():
    for size in (0, 1, 2, NAME - 1, NAME, NAME + 1, 255):
        name = b'n' * size
        yield from under(SETTINGS, (ident(name), function(name), function(name, A)))
        for three in ((name, b'NA', b'NCA'), (b'NC', name, b'NCA'), (b'NC', b'NA', name)):
            yield settings_bytes(7, *three), NULL
    for word in sorted(WORDS):
        mixed = bytes(b | 32 if i % 2 else b for i, b in enumerate(word))
        for w in (word, word.lower(), mixed, mixed.swapcase(), word + b'S', b'_' + word, word[:-1], word + b'0'):
            yield SETTINGS, ident(w)
        yield SETTINGS, function(mixed, A)
        yield settings_bytes(7, b'NC', mixed, b'NCA'), NULL
    for w in (b'_', b'__', b'A1', b'1A', b'a-b', b'a b', b'a\0', b'\xc3\xa9', b'Z_9'):
        yield SETTINGS, ident(w)
    yield SETTINGS, record(11)
    for body in (b'\0', b'\1', b'\2a', b'\1a', b'\1a' + NULL, b'\2a' + NULL, b'\1a\0', b'\xff' + b'a' * 254):
        yield SETTINGS, record(11, body)


def operator_rules():
    for o in list(range(56)) + [255, 256, 257, 0x0107, 65535]:
        yield monadic(o, A)
        yield dyadic(o, A, B)
    for kind in (9, 10):
        for body in (b'', b'\0', b'\7', b'\x35', b'\xff', b'\x07\0', b'\x08\0', b'\x35\0', b'\xff\xff'):
            yield record(kind, body)
    for kind in (14, 15, 99, 100, 200, 255, 256, 269, 65535):
        yield record(kind)
        yield record(kind, b'\0')
        yield monadic(NEG, record(kind))


def places():
    """Refusal 7: each operator over operands of each shape, on both sides."""
    shapes = [A, NULL, array(), array(A), array(A, B), array(A, B, C), interval(A, B), interval(UNBOUNDED, date(2024, 1, 1)),
              interval(interval(A, B), C), interval(A, interval(B, C)), monadic(NEG, interval(A, B)), array(interval(A, B), C),
              function(b'f', interval(A, B)), dyadic(TAFTER, interval(A, B), C), dyadic(TCONTAINS, interval(A, B), C)]
    every = [NUMBER[name] for name in 'Eq TAfter TContains IsBetween IsNotBetween IsInList'.split()]
    for o in DYADIC_NUMBERS:
        some = shapes if o in every else shapes[:2] + shapes[4:7] + shapes[9:10]
        for t in some:
            for u in some:
                yield dyadic(o, t, u)
    for t in shapes:
        yield t
        for o in MONADIC_NUMBERS:
            yield monadic(o, t)
        yield from (array(t), array(A, t), function(b'f', A, t), interval(t, A), interval(A, t))


def depths():
    wraps = (lambda t: monadic(NEG, t), lambda t: array(t), lambda t: array(NULL, t), lambda t: function(b'f', t),
             lambda t: dyadic(AND, t, NULL), lambda t: dyadic(AND, NULL, t), lambda t: interval(t, NULL),
             lambda t: dyadic(TAFTER, interval(t, NULL), NULL))
    for n in (1, 2, PLANNER.depth - 1, PLANNER.depth, PLANNER.depth + 1, PLANNER.depth + 2):
        for wrap in wraps:
            for t in leaves() + [record(14), record(2, b'\2'), b'\0', b'\1\0\0\0\0\0', b'\xff\0\0\0\0\0', array()]:
                for _ in range(n - 1):
                    t = wrap(t)
                if len(t) < 700:
                    yield t


def sizes():
    longest = string(b'y' * STR)
    for n in (PLANNER.tree - 1, PLANNER.tree, PLANNER.tree + 1):
        full, left = divmod(n - 6, len(longest))
        yield array(*[longest] * full, string(b'y' * (left - 7)))
    yield bytes(PLANNER.tree + 1)
    yield array(*[NULL] * 5460)


def frames():
    yield b''
    for n in range(1, 8):
        yield bytes(n)
        yield b'\xff' * n
    for tree in whole():
        for n in range(len(tree)):
            yield tree[:n]
        for extra in (b'\0', b'\2\0\0\0\0', NULL, b'\xff' * 6):
            yield tree + extra


def bodies():
    """A byte short and a byte over in each record of each tree, with all lengths right; and each length one off by itself."""
    for tree in whole():
        for at, stop, above in records_of(tree):
            body = tree[at + 6:stop]
            for other in (body[:-1], body + b'\0', body + b'\1', body + NULL, body[1:], b''):
                if other != body:
                    yield resized(tree, above, at, stop, other)
            for step in (-1, 1, 2 ** 31):
                yield patched(tree, '<I', at, (struct.unpack_from('<I', tree, at)[0] + step) % 2 ** 32)
            for kind in (0, 8, 12, 13, 14, 65535):
                yield patched(tree, '<H', at + 4, kind)


def patched(data, form, at, value):
    out = bytearray(data)
    struct.pack_into(form, out, at, value)
    return bytes(out)


def orders():
    """Two failures in two records, in both orders, in each place where two records can stand."""
    faults = [b'\0\0\0', b'\1\0\0\0\0\0', record(14), record(2, b'\2'), monadic(0, A), record(9, b'\0'), record(10), interval(A, B),
              array(interval(A, B)), dyadic(IS_BETWEEN, A, B), dyadic(TCONTAINS, A, B), array(b'\0'), monadic(NEG, A + b'\0'),
              function(b'and', record(14)), function(b'1', A), A]
    for x in faults:
        for y in faults:
            yield from (dyadic(EQ, x, y), array(x, y), interval(x, y), dyadic(53, x, y), function(b'f', x, y))


def settings_rules():
    body = SETTINGS[6:]
    yield SETTINGS[:-1], bytes(PLANNER.tree + 1)
    for tree in (A, record(14), b''):
        for s in (b'', SETTINGS[:-1], SETTINGS + b'\0', SETTINGS + SETTINGS, record(99, body), record(101, body), record(0), record(100),
                  record(100, b'\7'), A):
            yield s, tree
        for precision in (0, 1, 14, 15, 16, 255):
            yield record(100, bytes([precision]) + body[1:]), tree
    for n in range(len(SETTINGS)):
        yield SETTINGS[:n], A
        yield record(100, body[:n]), A
        for b in (0, 1, 2, 15, 64, 65, 255):
            yield patched(SETTINGS, 'B', n, b), A
    yield record(100, body + b'\0'), A
    yield record(100, body + counted(b'N')), A
    yield settings_bytes(7, b'n' * NAME, b'_' * NAME, b'Z' * NAME), A


def edges(with_sizes=True):
    """All of the above."""
    for group in (fields, dates, name_rules, operator_rules, places, depths, *[sizes] * with_sizes, frames, bodies, orders, settings_rules):
        yield from group() if group in (name_rules, settings_rules) else under(SETTINGS, group())


# ---- random trees with a few bytes changed


def random_tree(rng, depth):
    kind = rng.randrange(14 if depth else 9)
    sub = lambda: random_tree(rng, depth - 1)
    few = lambda: [sub() for _ in range(rng.randrange(4))]
    if kind < 9:
        return rng.choice(leaves())
    if kind == 9:
        return monadic(rng.choice(MONADIC_NUMBERS), sub())
    if kind == 10:
        name = rng.choice(DYADIC + ['TAfter', 'TContains', 'TDuring', *BETWEEN] * 4)
        if name in TEMPORAL and rng.random() < .7:
            return dyadic(NUMBER[name], interval(sub(), sub()), interval(sub(), sub()))
        if name in BETWEEN and rng.random() < .7:
            return dyadic(NUMBER[name], sub(), array(sub(), sub()))
        return dyadic(NUMBER[name], sub(), sub())
    if kind == 11:
        return function(b'f%d' % rng.randrange(100), *few())
    if kind == 12:
        return array(*few())
    return dyadic(TDISJOINT, interval(sub(), sub()), sub())


def mutations(count, seed=20260101):
    rng = random.Random(seed)
    for _ in range(count):
        tree = bytearray(random_tree(rng, 4))
        if len(tree) > 400:
            continue
        for _ in range(rng.choice((0, 1, 1, 1, 2, 3))):
            at = rng.randrange(len(tree))
            tree[at] = rng.choice((rng.randrange(256), tree[at] ^ 1, (tree[at] + 1) % 256, (tree[at] - 1) % 256))
        yield SETTINGS, bytes(tree)
