"""Bytes with one thing changed: of any input, or of a right tree's records."""
import random, struct

from edges import edge_leaf
from generators import leaves, trees
from generators.edits import records_of, replaced, resized
from model import records
from model.operators import NAMES, NUMBER, TEMPORAL
from model.records import encode

NULL, INTERVAL = trees.NULL, records.interval(trees.A, trees.B)
SPECIAL = [0, 1, 2, 3, 4, 9, 10, 13, 14, 15, 16, 23, 24, 27, 31, 32, 39, 52, 53, 59, 60, 64, 65, 99, 100, 127, 128, 200, 255]
TEMPORAL_NUMBERS = [NUMBER[name] for name in TEMPORAL]
EDGES = list(trees.edges(with_sizes=False))
SMALL_TREES, LARGE_TREES = [c for c in EDGES if len(c[1]) < 2000], [c for c in EDGES if len(c[1]) >= 2000]
LEAVES = list(map(encode, leaves.fields(random.Random(5))))


def flipped(r, b):
    b = bytearray(b)
    for _ in range(r.choice((1, 1, 2, 3))):
        b[r.randrange(len(b))] ^= 1 << r.randrange(8)
    return bytes(b)


def bytes_changed(r, b):
    b = bytearray(b)
    for _ in range(r.choice((1, 1, 2))):
        at, how = r.randrange(len(b)), r.randrange(4)
        if how == 0 and len(b) > 1:
            del b[at]
        elif how == 1:
            b.insert(at, r.choice(SPECIAL))
        else:
            b[at] = r.choice(SPECIAL) if how == 2 else r.randrange(256)
    return bytes(b)


def cut_or_lengthened(r, b):
    how = r.randrange(4)
    if how == 0:
        return b[:r.randrange(len(b))]
    if how == 1:
        return b[r.randrange(1, len(b) + 1):]
    return b + (r.choice((NULL, b'\0', b'\2\0\0\0\0', b'\xff' * 6, b)) if how == 2 else r.randbytes(r.randint(1, 9)))


def length_changed(r, tree):
    out, (at, _, _) = bytearray(tree), r.choice(list(records_of(tree)))
    n = struct.unpack_from('<I', out, at)[0]
    n = r.choice((n - 1, n + 1, n - 6, n + 6, n + 2 ** 31, 0, 1, 2, r.randrange(len(tree) + 2), 2 ** 32 - 4, 2 ** 32 - 1, n ^ 1 << r.randrange(32)))
    struct.pack_into('<I', out, at, n % 2 ** 32)
    return bytes(out)


def kind_or_operator_changed(r, tree):
    out, (at, stop, _) = bytearray(tree), r.choice(list(records_of(tree)))
    if out[at + 4] in (9, 10) and stop - at >= 8 and r.random() < .7:
        some = lambda: r.randrange(len(NAMES))
        struct.pack_into('<H', out, at + 6, r.choice((some(), some(), r.choice(TEMPORAL_NUMBERS), len(NAMES), 256, 65535)))
    else:
        struct.pack_into('<H', out, at + 4, r.choice((r.randrange(14), r.randrange(14), 14, 100, 256 + r.randrange(14), 65535)))
    return bytes(out)


def body_changed(r, tree):
    at, stop, above = r.choice(list(records_of(tree)))
    body = tree[at + 6:stop]
    other = r.choice((body[:-1], body[1:], body + b'\0', body + b'\1', body + NULL, NULL + body, b'', body + body))
    return resized(tree, above, at, stop, other)


def record_moved(r, tree):
    """A record is taken out, doubled, or put in the place of another; or an Interval, an Array or a leaf comes in."""
    found = list(records_of(tree))
    at, stop, above = r.choice(found)
    here, how = tree[at:stop], r.randrange(6)
    if how == 0:
        return replaced(tree, above, at, stop, b'')
    if how == 1:
        return replaced(tree, above, at, stop, here + here)
    if how == 2:
        p, q, _ = r.choice(found)
        return replaced(tree, above, at, stop, tree[p:q])
    if how == 3:
        return replaced(tree, above, at, stop, r.choice((INTERVAL, records.interval(here, NULL), records.array(here), records.array(here, here))))
    if how == 4:
        return replaced(tree, above, at, stop, r.choice((r.choice(LEAVES), edge_leaf(r))))
    return replaced(tree, above, at, stop, r.choice(SMALL_TREES)[1])


DAMAGE = {'bit flips': flipped, 'bytes changed': bytes_changed, 'cut or lengthened': cut_or_lengthened, 'length field': length_changed,
          'kind or operator': kind_or_operator_changed, 'body': body_changed, 'records moved': record_moved}
