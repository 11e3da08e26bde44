"""Fields at the edges of their rules."""
from generators import filters, texts
from model import records
from model.limits import MANTISSA, NAME, SPATIAL, STR
from model.names import RESERVED
from model.records import null

WORD_EDGES = bytes(sorted({x + d for x in b'AZaz09_ (),-.~\'"' for d in (-1, 0, 1)} | {0, 31, 127, 128, 255}))
TOP = MANTISSA + 1
WORDS = sorted(RESERVED)
SHORT = [word for word in WORDS if len(word) == 2]    # few, so that each is drawn often enough for a fault to be found


def edge_text(r, good, sizes):
    """Good bytes, mostly with one at the edge of a rule among them."""
    text = bytearray(good * r.choice(sizes))
    if text and r.random() < .5:
        text[r.choice((0, len(text) - 1, r.randrange(len(text))))] = r.choice(WORD_EDGES)
    return bytes(text)


def edge_name(r):
    if r.random() < .4:
        word = r.choice(SHORT if r.random() < .5 else WORDS)
        word = b''.join(bytes([c]).lower() if r.random() < .5 else bytes([c]) for c in word)
        return r.choice((word, word, word[:-1], word + b'S', b'_' + word))
    return edge_text(r, r.choice((b'n', b'_', b'Z')), (0, 1, 2, 5, NAME - 1, NAME, NAME, NAME + 1))


def any_text(r):
    """A right text of a Str or a row: plain, or with apostrophes and characters of every length."""
    return texts.random_text(r) if r.random() < .6 else filters.plain_text(r)


def edge_value(r, most):
    """Bytes of a Str or a row at the edges of their rule: any characters, ill-formed ones, and up to so many bytes and one more."""
    k = r.random()
    if k < .3:
        return texts.broken_text(r)
    if k < .4:
        return r.choice(texts.VALUES)
    if k < .8:
        return edge_text(r, b'v', (0, 1, 3, 3, 3, 40))
    last = r.choice(("'", "'", 'é', '車', '🔩', 'z')).encode()
    size, body = most + r.choice((-1, 0, 0, 1)), r.choice((b'z', b"'", last))
    return (body * most)[:size - len(last) - (size - len(last)) % len(body)] + last


def edge_day(r):
    year = r.choice((0, 1, 4, 100, 400, 1900, 1900, 2000, 2000, 2023, 2024, 2100, 9999, 10000, 65535))
    return year, r.choice((*range(14), 2, 2, 2, 255)), r.choice((0, 1, 28, 29, 29, 30, 31, 32))


def edge_leaf(r):
    kind = r.randrange(8)
    if kind == 0:
        m = r.choice((0, TOP, -TOP, 2 ** 63, -2 ** 63, 10 ** r.randrange(16))) + r.randint(-2, 2)
        return records.num(max(-2 ** 63, min(2 ** 63 - 1, m)), r.choice((0, 1, 8, 9, 9, 10, 255)))
    if kind == 1:
        return records.string(edge_value(r, STR if r.random() < .15 else 40), r.choice((0, 1, 2, 3, 3, 3, 4, 255)))
    if kind == 2:
        return records.date(*edge_day(r))
    if kind == 3:
        return records.timestamp(*edge_day(r), r.choice((0, 9, 23, 23, 24)), r.choice((0, 59, 59, 60)), r.choice((0, 59, 59, 60)))
    if kind == 4:
        srid = r.choice((0, 9, 10, 4326, 2 ** 31, 2 ** 32 - 1))
        return records.spatial(srid, edge_text(r, b'P', (0, 1, 5, 5, 5)) if r.random() < .97 else b'(' * r.randint(SPATIAL - 1, SPATIAL + 1))
    if kind == 5:
        return records.boolean(r.choice((0, 1, 1, 2, 255)))
    return records.ident(edge_name(r)) if kind == 6 else records.function(edge_name(r), *[null()] * r.randrange(3))
