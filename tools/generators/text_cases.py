"""Trees, SQL texts and rows that hold the values of texts.py. A case has its answer where the rule says it without more: None is for others to say."""
import itertools

from model.limits import SQL, STR, VALUE
from model.operators import NUMBER
from model.reader import SIGNS
from model.records import SHEET_SETTINGS, array, column, dyadic, function, ident, record, row, settings_record, spatial, string
from model.refusals import FIELD, GRAMMAR, KIND, READING_SIZE, ROW

from .texts import BROKEN, EDGES, ILL_FORMED, LABELS, VALUES, around, literal, sequences

SETTINGS, A = settings_record(SHEET_SETTINGS), ident(b'a')
ACCENT, TOOL = 'é'.encode(), '🔩'.encode()


# ---- trees: a Str's value and flags; and whole trees


def str_values():
    """Each once, of any length."""
    found = [*VALUES, *sequences(), *(one for value in (*ILL_FORMED, *EDGES) for one in around(value))]
    for character in (b"'", ACCENT, '車'.encode(), TOOL):
        for size in (STR - 1, STR, STR + 1):
            found.append((character * STR)[:size])
            found.append((b'x' * (size - len(character)) + character))
    return list(dict.fromkeys(found))


def in_trees():
    """Tree and answer: ill-formed bytes below other records, before and after other failures, and where no Str stands."""
    worst = [some[0] for some in BROKEN.values()]
    for value in worst:
        yield dyadic(NUMBER['Eq'], A, string(value)), FIELD
        yield dyadic(NUMBER['Eq'], string(value), A), FIELD
        yield array(string(b"O'Ring"), string(value), record(14)), FIELD
        yield array(record(14), string(value)), KIND
        yield function(b'f', string(ACCENT, 3), string(value, 3)), FIELD
        yield spatial(0, value), FIELD
        yield ident(b'a' + value), FIELD
    for value in (b"'", ACCENT, TOOL, b"O'Ring"):
        yield dyadic(NUMBER['Eq'], A, string(value)), 0
        yield array(string(value, 1), string(value + value, 2)), 0
        yield string(value, 4), FIELD
        yield from ((tree, FIELD) for tree in (spatial(0, value), spatial(0, b'P' + value), ident(value), ident(b'a' + value), function(value, A)))


# ---- texts and rows


def pairs():
    """A value in a column, the other written; both written; both in columns. The sign goes round."""
    signs = itertools.cycle(sign.encode() for sign in SIGNS)
    values = [*LABELS, *EDGES]
    for k, (one, other) in enumerate(itertools.product(values, values)):
        held = row([(b'a', one), (b'b', other)])
        yield b'a %s %s' % (next(signs), literal(other)), held
        if k % 5 == 0:
            yield b'%s%s%s' % (literal(one), next(signs), literal(other)), held
            yield b'a%s"b"' % next(signs), held


def joined():
    """Several tests with such texts, in brackets and without spaces."""
    for one, other in zip(VALUES, VALUES[1:]):
        held, x, y = row([(b'a', one), (b'b', None)]), literal(one), literal(other)
        yield b'a=%sAND(%s<>%s OR b IS NULL)' % (x, x, y), held
        yield b'NOT %s=a OR %s<%s AND b=%s' % (x, x, y, y), held


def marks():
    """Every run of up to five apostrophes, letters and spaces, before a sign and behind it."""
    for size in range(1, 6):
        for run in itertools.product((b"'", b'a', b' '), repeat=size):
            if b"'" in run:
                yield b''.join(run) + b'= a', row([(b'a', b"'a")])
                yield b'a =' + b''.join(run), row([(b'a', b'a')])


def apostrophes():
    for size in range(1, 20):
        yield b"'" * size + b' <= a', row([(b'a', b"'" * 4)])
    for count in (VALUE - 1, VALUE):
        yield b'a = ' + literal(b"'" * count), row([(b'a', b"'" * count)])


def wrong():
    """With their answers."""
    held = row([(b'a', b'x')])
    for value in ILL_FORMED:
        for one in around(value):
            yield b'TRUE', row([(b'b', None), (b'a', one)]), ROW
            yield b'a = ' + literal(one), held, GRAMMAR
    for value in (some[0] for some in BROKEN.values()):
        yield b"a = 'x", row([(b'a', value)]), ROW
        yield b'zz = ' + literal(value), held, GRAMMAR
        yield value + b" = 'x'", held, GRAMMAR
        yield b"a = 'x'" + value, held, GRAMMAR
        yield b'"' + value + b'" = a', held, GRAMMAR
    for value in (b"'", ACCENT, TOOL, b'\xc2\xa0', b'\xef\xbb\xbf'):
        yield b'TRUE', column(b'a' + value, b'x'), ROW
        yield b'TRUE', column(value, b'x'), ROW
        yield b'"a' + value + b'" IS NULL', held, GRAMMAR
        yield value + b"a = 'x'", held, GRAMMAR


def sizes():
    """The 64 bytes of a value and the 65,535 of a text; of a quoted text there is no limit. With their answers."""
    for character in (b"'", ACCENT, '車'.encode(), TOOL):
        fits, over = character * (VALUE // len(character)), b'x' * (VALUE + 1 - len(character)) + character
        yield b'a = ' + literal(fits), row([(b'a', fits)]), 'true'
        yield b'TRUE', row([(b'a', over)]), ROW
        yield b'a < ' + literal(over), row([(b'a', over[1:])]), 'false' if over[1:] >= over else 'true'
        many = character * ((SQL - 4) // len(literal(character)[1:-1]))
        yield (b'a<' + literal(many)).ljust(SQL)[:SQL], row([(b'a', b'!')]), 'true' if b'!' < many else 'false'
        yield (b'a<' + literal(many)).ljust(SQL + 1), row([(b'a', b'!')]), READING_SIZE
    yield b"'" * SQL, b'', GRAMMAR
