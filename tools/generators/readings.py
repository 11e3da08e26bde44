"""SQL texts and rows at random: in the grammar of document 01 ("Truth"), and with one change that mostly leads out of it."""
import random
import re

from model.names import folded
from model.reader import SIGNS as SIGN_WORDS
from model.records import column, row as row_of
from model.strings import quoted

SIGNS = [sign.encode() for sign in SIGN_WORDS]
# Names that differ in one letter, in a letter's case, or in a digit; and the longest.
NAMES = [
    b'a', b'b', b'c', b'ab', b'ac', b'abc', b'abd', b'_x', b'x1', b'x2', b'date_from', b'date_to', b'N' * 64, b'N' * 63 + b'M', b'orx', b'nullx',
    b'isa', b'android']
VALUES = [
    b'', b'a', b'ab', b'abc', b'b', b'B', b'A', b' ', b'  ', b'2024-01-01', b'2024-01-02', b'2024-01-01T00:00:00', b'-2021-01-01', b'~' * 64,
    b'~' * 63, b'z' * 64, b'"', b'10', b'9', b'(', b'NULL']
ODD = [
    b'\t', b'\n', b'==', b'<', b'=', b'!', b'"', b"'", b'(', b')', b'NOTNULL', b'ISNULL', b'LIKE', b'BETWEEN', b'IN', b'1', b'-', b';', b'--',
    b'/*', b'\x7f', b'\x80', b'and', b'is', b'not', b'null', b'"and"', b'"a b"', b'""', b'N' * 65, b'"' + b'N' * 65 + b'"', b"'it''s'", b'TRUE',
    b'COLLATE', b'div', b'.', b',']
WORDLIKE = re.compile(rb'[A-Za-z0-9_]')


def some_row(r):
    pick, seen = [], set()
    for n in r.sample(NAMES, r.randint(0, 7)):
        if folded(n) not in seen:
            seen.add(folded(n))
            pick.append((n, None if r.random() < .3 else r.choice(VALUES)))
    return pick


def keyword(r, word):
    return b''.join(bytes([c]) if r.random() < .8 else bytes([c]).swapcase() for c in word)


def name_token(r, cells):
    if cells and r.random() < .93:
        n = r.choice(cells)[0]
    else:
        n = r.choice(NAMES)
    if r.random() < .03:
        n = n.swapcase()
    return b'"' + n + b'"' if r.random() < .4 else n


def atom(r, cells):
    k = r.random()
    if k < .6:
        return [name_token(r, cells)]
    if k < .92:
        return [quoted(r.choice(VALUES).decode()).encode()]
    return [keyword(r, b'NULL')]


def test(r, cells, depth):
    k = r.random()
    if depth > 0 and k < .3:
        return [b'('] + expression(r, cells, depth - 1) + [b')']
    if k < .75:
        return atom(r, cells) + [r.choice(SIGNS)] + atom(r, cells)
    if k < .93:
        form = r.choice([(b'IS', b'NULL'), (b'IS', b'NOT', b'NULL'), (b'NOT', b'NULL')])
        return [name_token(r, cells)] + [keyword(r, w) for w in form]
    return [keyword(r, r.choice([b'NULL', b'TRUE', b'FALSE']))]


def expression(r, cells, depth):
    out = []
    for i in range(r.choice([1, 1, 2, 2, 3, 4])):
        if i:
            out.append(keyword(r, r.choice([b'AND', b'OR'])))
        out += [keyword(r, b'NOT')] * r.choice([0, 0, 0, 0, 1, 2, 3])
        out += test(r, cells, depth)
    return out


def joined(r, tokens):
    out = b' ' * r.choice([0, 0, 0, 1, 3])
    for i, t in enumerate(tokens):
        if i:
            touch = WORDLIKE.match(out[-1:]) and WORDLIKE.match(t[:1])
            glued = out[-1:] + t[:1] in (b'<=', b'>=', b'<>', b'!=')
            out += b' ' * (r.choice([1, 1, 2]) if touch or glued or r.random() < .6 else 0)
        out += t
    return out + b' ' * r.choice([0, 0, 0, 1])


def bent(r, tokens):
    """One change that mostly leads out of the grammar."""
    tokens = list(tokens)
    i = r.randrange(len(tokens))
    how = r.randrange(5)
    if how == 0:
        del tokens[i]
    elif how == 1:
        tokens.insert(i, r.choice(ODD))
    elif how == 2:
        tokens[i] = r.choice(ODD)
    elif how == 3:
        tokens.insert(i, tokens[i])
    else:
        j = r.randrange(len(tokens))
        tokens[i], tokens[j] = tokens[j], tokens[i]
    return tokens


def bent_row(r, row):
    """One change that mostly breaks the row's form."""
    if not row:
        return r.choice([b'\0', b'\0' * 6, column(b'and', b'x'), column(b'1a', b'x'), column(b'', b'x'), column(b'a', b'x', 201)])
    row = bytearray(row)
    how = r.randrange(4)
    if how == 0:
        row[r.randrange(len(row))] = r.choice([0, 1, 2, 32, 39, 65, 127, 200, 255])
    elif how == 1:
        del row[r.randrange(len(row))]
    elif how == 2:
        row += row[:r.randint(1, len(row))]
    else:
        row += column(r.choice(NAMES).swapcase(), b'x')
    return bytes(row)


def random_readings(count, seed):
    r = random.Random(seed)
    for _ in range(count):
        cells = some_row(r)
        tokens = expression(r, cells, r.choice([0, 1, 2, 4]))
        row, k = row_of(cells), r.random()
        if k < .22:
            tokens = bent(r, tokens)
        elif k < .28:
            row = bent_row(r, row)
        text = bytearray(joined(r, tokens))
        if .28 < k < .32 and text:
            text[r.randrange(len(text))] = r.randrange(256)
        yield bytes(text), row
