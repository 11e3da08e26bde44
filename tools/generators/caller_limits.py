"""Trees on both sides of a caller's limits: bytes of a tree, levels, bytes of a text (document 02, slip 7)."""
from model import lowering
from model.operators import BETWEEN, DYADIC, INSTANT_OR_INTERVAL, MONADIC, NUMBER, TEMPORAL
from model.records import SHEET_SETTINGS, Settings, array, dyadic, encode, function, ident, interval, levels, monadic, null, record

from .stamps import DAY, OPEN, STAMP

A, B, C = (('id', name) for name in 'abc')
LEAVES = [('null',), OPEN, ('bool', 1), ('num', -5, 1), ('str', 3, 'x'), DAY, STAMP, ('spatial', 4326, 'POINT (1 2)'), A]
HOLDERS = [    # of each kind that holds records, one at the least depth that it has, then one with a record inside
    ('array', []), ('function', 'f', []), ('array', [A]), ('function', 'f', [A]), ('monadic', 'Neg', A), ('dyadic', 'Eq', A, B),
    ('dyadic', 'TAfter', A, ('interval', B, C)), ('dyadic', 'IsBetween', A, ('array', [B, C]))]
LONG_NAMES = Settings(7, 'c' * 64, 'a' * 64, 'b' * 64)


# ---- levels


def of_one_operator(name):
    """Ways to put a tree below an operator of two operands, at each place where one can stand."""
    if name in BETWEEN:
        return [lambda t: ('dyadic', name, t, ('array', [A, B])), lambda t: ('dyadic', name, A, ('array', [t, B])),
                lambda t: ('dyadic', name, A, ('array', [B, t]))]
    ways = []
    if name in TEMPORAL:
        ways += [lambda t: ('dyadic', name, ('interval', t, A), ('interval', B, C)), lambda t: ('dyadic', name, ('interval', A, t), ('interval', B, C)),
                 lambda t: ('dyadic', name, ('interval', A, B), ('interval', t, C)), lambda t: ('dyadic', name, ('interval', A, B), ('interval', C, t))]
    if name not in TEMPORAL or name in INSTANT_OR_INTERVAL:
        ways += [lambda t: ('dyadic', name, t, A), lambda t: ('dyadic', name, A, t)]
    if name in INSTANT_OR_INTERVAL:
        ways += [lambda t: ('dyadic', name, t, ('interval', A, B)), lambda t: ('dyadic', name, ('interval', A, B), t)]
    return ways


def wraps():
    """Every way to put a tree one or two levels deeper."""
    yield from (lambda t, name=name: ('monadic', name, t) for name in MONADIC)
    yield from (lambda t: ('array', [t]), lambda t: ('array', [A, t]), lambda t: ('function', 'f', [t]), lambda t: ('function', 'f', [A, t]))
    for name in DYADIC:
        yield from of_one_operator(name)


def chain(wrap, bottom, count):
    """A tree of so many levels, by the same wrap again and again; one level is made up by an array where the wrap has two."""
    step, tree = levels(wrap(A)) - 1, bottom
    if (count - levels(bottom)) % step:
        tree = ('array', [tree])
    while levels(tree) < count:
        tree = wrap(tree)
    return tree


def chains(limit):
    """Every wrap, and every kind at the bottom, at the deepest level that passes and one deeper."""
    for count in (limit.depth, limit.depth + 1):
        yield from (chain(wrap, STAMP, count) for wrap in wraps())
        yield from (chain(lambda t: ('array', [t]), bottom, count) for bottom in LEAVES + HOLDERS)
        yield from (chain(lambda t: ('dyadic', 'And', A, t), bottom, count) for bottom in LEAVES + HOLDERS)


def deeper(r, tree, count):
    """The tree, put deeper by any wraps until it has so many levels or one more."""
    some = list(wraps())
    while levels(tree) < count:
        tree = r.choice(some)(tree)
    return tree


# ---- bytes of a tree and of a text


def beside(tree, letters):
    return ('dyadic', 'And', tree, ('str', 0, letters))


def of_bytes(tree, size):
    """The tree beside a Str, as a record of so many bytes."""
    return beside(tree, 'y' * (size - len(encode(beside(tree, '')))))


def doubled(tree, times, end=B):
    """The tree as an operand that is written twice, so many times over."""
    for _ in range(times):
        tree = ('dyadic', 'TEquals', tree, ('interval', A, end))
    return tree


def tree_sizes(limit):
    """Around the limit of a tree: alone, nested to the deepest level that passes and one deeper, and with a text that is too long besides."""
    deep, deeper = (chain(lambda t: ('array', [t]), A, limit.depth + more) for more in (-1, 0))
    for size in range(limit.tree - 2, limit.tree + 3):
        yield from (of_bytes(tree, size) for tree in (A, deep, deeper, STAMP, ('array', [OPEN] * (limit.tree // 12))))
        yield of_bytes(('array', [OPEN] * ((limit.tree - 60) // 6)), size)    # a text that is too long
        yield ('str', 0, 'é' * ((size - 7) // 2) + 'x' * ((size - 7) % 2))


def text_bases():
    """Settings and trees with a text of some 3,000 to 3,990 bytes in one of the writings; in some the other's passes the limit or is far below it."""
    yield from ((SHEET_SETTINGS, tree) for tree in (
        ('array', [OPEN] * 260), ('array', [STAMP] * 135), doubled(('array', [STAMP] * 65), 1), doubled(('array', [STAMP, DAY, A] * 8), 3),
        doubled(('array', [STAMP] * 2), 5, OPEN), doubled(('array', [OPEN] * 5), 5, OPEN), doubled(('str', 0, "é'" * 200), 2)))
    yield from ((LONG_NAMES, tree) for tree in (('str', 3, "'" * 1950), ('array', [('str', 1 + k % 3, '') for k in range(50)]),
                                                ('dyadic', 'And', chain(lambda t: ('monadic', 'CaseI', t), A, 6), ('array', [('str', 3, "'")] * 40))))


def text_sizes(limit):
    """Settings and trees around the limit of a text, by either writing."""
    for settings, tree in text_bases():
        for writing in (lowering.RUST, lowering.GEOPACKAGE):
            room = limit.text - len(lowering.text(settings, beside(tree, ''), writing).encode())
            if 2 <= room <= limit.tree - len(encode(beside(tree, ''))) - 2:
                yield from ((settings, beside(tree, 'y' * (room + more))) for more in (-2, -1, 0, 1, 2))
    yield SHEET_SETTINGS, ('str', 3, "'" * (limit.tree - 7))    # for the controller both limits at once: 2,000 and 4,000 bytes
    yield Settings(7, 'NC', 'NA', 'NCAI'), ('str', 3, "'" * (limit.tree - 7))
    yield from ((SHEET_SETTINGS, doubled(('str', 0, 'x' * size), 6)) for size in (100, 1100, 1700))    # far longer texts, of 7 to 110 KB


def near(r, limit, trees):
    """Each of the trees as one that lies near a limit: of depth, of bytes, or of bytes of text, by either writing, most of them written four times."""
    for k, tree in enumerate(trees):
        if k % 3 == 0:
            yield deeper(r, tree, limit.depth + r.choice((-1, 0, 0, 1, 2)))
        elif len(encode(tree)) > limit.tree // 4:
            yield tree
        elif k % 3 == 1:
            yield of_bytes(tree, limit.tree + r.randint(-2, 2))
        else:
            written = lowering.text(SHEET_SETTINGS, doubled(beside(tree, ''), 2), r.choice((lowering.RUST, lowering.GEOPACKAGE)))
            yield doubled(beside(tree, 'y' * max(0, (limit.text - len(written.encode())) // 4 + r.randint(-1, 2))), 2)


# ---- records that are wrong as well, with the refusal that comes first


def wrong_and_deep(limit):
    """What is wrong at the first level that is too deep, and before and after a record that lies there."""
    deep = lambda record_, more=0: _nested(record_, limit.depth + more)
    past, last, apart, bad = deep(null()), deep(null(), -2), interval(null(), null()), ident(b'1')    # `past` and, one level down, `last`
    yield from ((deep(frame), 3) for frame in (b'\0', b'\1\0\0\0\0\0', b'\xff\0\0\0\0\0', null()[:5], b'\0\0\0\0\x0e\0'))
    yield from ((deep(one), 4) for one in (record(14), record(2, b'\2'), bad, record(9), apart, monadic(8, null()), array(b'\0'), null() + b'\0'))
    yield from ((deep(one, -1), number) for one, number in ((record(14), 5), (record(2, b'\2'), 6), (bad, 6), (record(9), 6), (record(9, b'\7\0'), 3),
                                                            (apart, 4), (array(null()), 4), (function(b'f', null()), 4), (monadic(7, null()), 4),
                                                            (monadic(8, null()), 5), (function(b'and', null()), 6), (array(b'\0'), 3)))
    for one, number in ((b'\0', 3), (record(14), 5), (bad, 6), (monadic(8, past), 5), (function(b'1', past), 6), (dyadic(53, past, past), 5)):
        yield from ((array(one, past), number), (array(past, one), 4), *[(dyadic(NUMBER['And'], last, one), number)] * (past not in one))
    yield from ((array(apart, past), 4), (array(past, apart), 4), (array(last, apart), 7), (array(apart, last), 7), (past + b'\0', 4), (last + b'\0', 3),
                (dyadic(NUMBER['IsBetween'], null(), past), 4), (dyadic(NUMBER['TContains'], null(), last), 7))


def _nested(inside, count):
    for _ in range(count):
        inside = array(inside)
    return inside


def wrong_and_long(limit):
    """Trees that are too long and wrong besides; a text that is too long beside an Interval out of place."""
    over = limit.tree + 1
    yield from ((tree, 2) for tree in (bytes(over), b'\xff' * over, record(14, bytes(over - 6)), array(bytes(over - 6)), _nested(bytes(over), limit.depth),
                                       encode(of_bytes(A, over))[:-1] + b'\0', encode(of_bytes(A, limit.tree)) + b'\0', bytes(2 * over)))
    yield from ((bytes(limit.tree), 3), (array(bytes(limit.tree - 6)), 3), (record(14, bytes(limit.tree - 6)), 5), (b'', 3), (encode(A)[:-1], 3),
                (encode(of_bytes(A, limit.tree))[:-1] + b'\0', 6), (encode(of_bytes(A, limit.tree - 1)) + b'\0', 3))
    long = encode(doubled(('str', 0, 'x' * 200), 5))
    yield from ((dyadic(NUMBER['And'], *sides), 7) for sides in ((long, interval(null(), null())), (interval(null(), null()), long)))
    yield from ((dyadic(NUMBER['And'], *sides), 6) for sides in ((long, ident(b'1')), (ident(b'1'), long)))


def wrong_settings(limit):
    """1 comes first, whatever the tree is."""
    sheet = record(100, b'\7\2NC\2NA\3NCA')
    for settings in (b'', sheet[:-1], sheet + b'\0', record(100, b'\x10\2NC\2NA\3NCA'), record(99, b'\7\2NC\2NA\3NCA')):
        yield from ((settings, tree, 1) for tree in (bytes(limit.tree + 1), _nested(null(), limit.depth), null(), b''))
