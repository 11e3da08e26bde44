"""SQL texts and rows at the edges of every rule of document 01 ("Truth", refusals 10 to 13): pairs, group by group."""
from model.limits import BRACKETS, NAME, ROW, SQL, VALUE
from model.names import RESERVED
from model.records import column, row

AB = row([(b'a', b'x'), (b'b', None), (b'c', b'')])
TEXTS = [
    b'', b' ', b'a', b"'a'", b'NULL', b'TRUE', b'FALSE', b'null', b'tRuE', b'NOT NULL', b'NOT NOT NULL', b'NOT TRUE', b'NOT', b'NULL NULL', b'a IS',
    b'a IS NOT', b'a IS NOT NULL', b'a IS NULL', b'a NOT NULL', b'a NOT', b'a NOT NOT NULL', b'a NOTNULL', b'a ISNULL', b'b IS NULL', b'b NOT NULL',
    b'"b" IS NULL', b'"b" NOT NULL', b"'x' IS NULL", b'NULL IS NULL', b'TRUE = a', b'a = TRUE', b'NULL = a', b'a = NULL', b'NULL = NULL',
    b"'x' = a", b"a = 'x'", b"a='x'", b"a ='x'AND c=''", b"a = 'x", b'"a', b'"a" = "a"', b"a < = 'x'", b"a <= 'x'", b"a < > 'x'", b"a <> 'x'",
    b"a ! = 'x'", b"a != 'x'", b"a == 'x'", b"a => 'x'", b"a >= 'x'", b"a =< 'x'", b"a > 'x'", b"a < 'x'", b'"and" = a', b'and = a', b'"" = a',
    b'"a b" = a', b'"1" = a', b"a = 'it''s'", b"a =\t'x'", b"\ta = 'x'", b"a = 'x'\n", b"a = 'x' ", b" a = 'x'", b"(a) = 'x'", b"(a = 'x')", b'()',
    b'(a', b"(a = 'x'", b"a = 'x')", b"((a = 'x'))", b'A IS NULL', b'zz IS NULL', b'"zz" IS NULL', b"zz = 'x", b"zz = 'x' AND", b'zz = zy OR TRUE',
    b'TRUE OR zz = a', b'FALSE AND zz IS NULL', b'NOT zz = a', b'a BETWEEN b AND c', b"a LIKE 'x'", b'a IN (b)', b'a COLLATE b = c', b'a DIV b',
    b'LIKE = a', b'"like" = a', b'select IS NULL', b'rowid IS NULL', b'a.b = c', b'1 = 1', b"a = 'x';", b"a = 'x' -- c", b"a = 'x' /* */",
    b'a = "c"', b'c = \'\'', b"c < 'a'", b"c > ' '", b"'' = ''", b"'' < ' '", b"'ab' < 'abc'", b"'abc' < 'ab'", b"'b' < 'abc'", b"'B' < 'b'",
    b"a = 'x' AND b = 'x'", b"a = 'y' AND b = 'x'", b"a = 'x' OR b = 'x'", b"a = 'y' OR b = 'x'", b'NOT b = a', b'NOT a = c AND b = a',
    b'NOT (a = c AND b = a)', b'TRUE OR FALSE AND FALSE', b'(TRUE OR FALSE) AND FALSE', b'NOT FALSE OR TRUE', b'NOT (FALSE OR TRUE)',
    b'NOT TRUE AND FALSE', b'NOT (TRUE AND FALSE)', b'FALSE AND TRUE OR TRUE', b'NULL OR TRUE', b'NULL OR FALSE', b'NULL AND TRUE',
    b'NULL AND FALSE', b'TRUE AND NULL OR FALSE', b'a = b = c', b'a < b < c', b'a IS NULL IS NULL', b'a IS NULL = b', b'TRUE FALSE', b'TRUE AND',
    b'AND TRUE', b'OR', b'TRUE OR OR TRUE', b'NOT OR TRUE', b'TRUENULL', b'NOTa = b', b"'a'='a'AND'b'='b'", b"'a'='a'OR'b'='b'AND'c'='d'",
    b'"a"IS NOT NULL', b'a IS NOT"b"', b"'a'<'b'", b'a<>b', b'a<>NULL', b"\xc3\xa9 = 'x'", b"a = '\xc3\xa9'", b'a\0= c']
ROWS = [
    b'', b'\0', AB[:-1], AB + b'\0', AB + b'\0' * 6, AB + AB, row([(b'a', b'x'), (b'A', b'y')]), row([(b'ab', b'x'), (b'aB', b'y')]),
    column(b'a', b'x', 199), column(b'a', b'x', 456), column(b'and', b'x'), column(b'And', b'x'), column(b'LIKE', b'x'), column(b'', b'x'),
    column(b'1', b'x'), column(b'a-', b'x'), column(b'a', b"'"), column(b'a', b'\x1f'), column(b'a', b'\x7f'), column(b'a', b'\x80'),
    column(b'a', b'~'), column(b'a', b' '), column(b'a', b''), column(b'a', None), b'\x05\0\0\0\xc8\0\x01a\x02', b'\x06\0\0\0\xc8\0\x01a\0x',
    b'\x05\0\0\0\xc8\0\x02a\x01', b'\x02\0\0\0\xc8\0', b'\x03\0\0\0\xc8\0\0', b'\x04\0\0\0\xc8\0\x01a', b'\x01\0\0\0\xc8\0\x01a\0',
    b'\0\0\0\0\xc8\0', b'\xff\xff\xff\xff\xc8\0\x01a\0', b'\x05\0\0\x01\xc8\0\x01a\0']
SHEETS = [    # the texts of document 01's sheets I, J and K
    b'"b" IS NOT NULL AND "c" NOT NULL AND (a > d)', b'("c" IS NOT NULL AND (a < b)) OR ("b" IS NOT NULL AND (a > c))',
    b"NOT(('2024-02-29' < '-2021-01-01') OR ('2024-02-29' > c))"]
DAYS = None, b'2024-01-01', b'2024-01-02', b'2024-02-29'


def three_letter_names(count):
    """In the order of the alphabet, without the reserved ones."""
    letters, made, n = b'ABCDEFGHIJKLMNOPQRSTUVWXYZ', [], 0
    while len(made) < count:
        name = bytes([letters[n // 676 % 26], letters[n // 26 % 26], letters[n % 26]])
        n += 1
        if name not in RESERVED:
            made.append(name)
    return made


def nulls(names):
    return [(name, None) for name in names]


def sized_row(size):
    """A row of exactly this many bytes: many columns of 11 bytes, then wider ones."""
    made = row(nulls(three_letter_names(size // 11 - 8)))
    while size - len(made) > 140:
        made += column(b'w%d' % len(made), b'v' * 40)
    left = size - len(made) - len(column(b'q' * 10, b''))
    if left <= VALUE:
        return made + column(b'q' * 10, b'v' * left)
    made += column(b'q' * 10, b'v' * 40)
    return made + column(b'r' * 10, b'v' * (left - 40 - len(column(b'r' * 10, b''))))


def sized_text(size):
    """A true text of exactly this many bytes."""
    long = b"'" + b'x' * 10000 + b"'='" + b'x' * 10000 + b"' OR "
    last = b"a='x'"
    return (long * ((size - len(last)) // len(long)) + last).ljust(size)


def sizes():
    for n in (SQL, SQL + 1):
        yield sized_text(n), AB
        yield b'a' * n, AB
        yield b"'" + b'x' * (n - 4) + b"'=a", AB
    for n in (ROW, ROW + 1):
        for text in (b'AAA IS NULL', b"qqqqqqqqqq < 'w'", b'ZZZ IS NULL'):
            yield text, sized_row(n)
    yield b'a' * (SQL + 1), b'\0'
    yield b"a='x'", b'\0' * (ROW + 1)


def counts():
    """About 64: brackets, bytes of a name, bytes of a value."""
    assert BRACKETS == NAME == VALUE
    for n in (BRACKETS - 1, BRACKETS, BRACKETS + 1):
        name, value = b'n' * n, b'v' * n
        longest = row([(b'n' * NAME, b'x')])
        yield b'(' * n + b"a='x'" + b')' * n, AB
        yield b'NOT (' * n + b'TRUE' + b')' * n, AB
        yield b'(' * n + b'TRUE' + b') AND (FALSE' + b')' * n, AB
        yield name + b" = 'x'", longest
        yield b'"' + name + b'" = \'x\'', longest
        yield b"a='x'", row([(b'a', b'x'), (name, b'y')])
        yield b"b = '" + value + b"'", row([(b'b', value)])
        yield b"b = '" + value + b"'", row([(b'b', b'v' * VALUE)])
    for text in (b'(' * 1000 + b'TRUE' + b')' * 1000, b'NOT ' * 16000 + b'TRUE', b"a='x'" + b" AND a='x'" * 6000,
                 b'((a=\'x\') OR ' * 20 + b'NULL' + b')' * 20):
        yield text, AB


def forms():
    for text in TEXTS:
        yield text, AB
    for made in ROWS:
        yield b"a = 'x'", made
        yield b'TRUE', made


def sheets():
    """On rows with and without NULL."""
    for text in SHEETS:
        for x in DAYS:
            for y in DAYS:
                yield text, row([(b'a', x), (b'b', y), (b'c', DAYS[1]), (b'd', DAYS[2])])
                yield text, row([(b'a', DAYS[2]), (b'b', x), (b'c', y), (b'd', y)])


def wide_rows():
    names = three_letter_names(2900)
    made = row(nulls(names))
    tests = b' AND '.join(name + b' IS NULL' for name in names)
    yield b' OR '.join(name + b'=' + name for name in names[::2]), made
    yield b' AND '.join(b'"' + name + b'" IS NULL' for name in names), made
    yield tests + b' AND AAa IS NULL', made
    yield b'TRUE', row(nulls(names) + [(b'aAb', b'x')])


def edges():
    """All of the above."""
    return [case for group in (sizes, counts, forms, sheets, wide_rows) for case in group()]
