"""Tests of docs/DIFFERENCES.md: each tree of its first tables is lowered by the proved program and by the Rust, each text run on SQLite, and each row stands
in the document as it is run here."""
import itertools
import os
import sqlite3
import struct
import unittest

from . import lowering, proved, records, reducing, rust
from .geopackage import collation, without_accents
from .records import Node, dyadic, monadic
from .writing import ARGUMENTS, GEOPACKAGE, RUST

SETTINGS = records.settings(7, 'NC', 'NA', 'NCA')
NULL, OPEN = Node(records.NULL, '$'), Node(records.UNBOUNDED, '$')


def name(text):
    return Node(records.ID, '$', text.encode())


def text(value, flags=0):
    return Node(records.STR, '$', bytes([flags]) + value.encode())


def num(mantissa, scale=0):
    return Node(records.NUM, '$', struct.pack('<qB', mantissa, scale))


def array(*items):
    return Node(records.ARRAY, '$', b'', items)


def interval(start, end):
    return Node(records.INTERVAL, '$', b'', [start, end])


def one(op, x):
    return monadic(op, '$', x)


def two(op, x, y):
    return dyadic(op, '$', x, y)


def date(*fields):
    return Node(records.DATE, '$', struct.pack('<HBB', *fields))


def stamp(*fields):
    return Node(records.TIMESTAMP, '$', struct.pack('<HBBBBB', *fields))


def nested(count, inner):
    for _ in range(count):
        inner = one('Neg', inner)
    return inner


A, B, C = map(name, 'abc')
ABC = {'a': None, 'b': None, 'c': None}

KEYWORD = 'Id `order`, Id `current_date`, Function `replace`, any keyword of SQLite'

# The first cell of the row; the tree; the Rust's answer, T and its text or P for a panic; the refusal here.
REFUSED = [
    ('BETWEEN(a, [0, 1, 2])', two('IsBetween', A, array(num(0), num(1), num(2))), ('T', 'a BETWEEN 0 AND 1'), 7),
    ('BETWEEN(a, [0]) or a right side that is no Array', two('IsBetween', A, array(num(0))), ('P', None), 7),
    ('BETWEEN(a, [0]) or a right side that is no Array', two('IsBetween', A, B), ('P', None), 7),
    ('Id `and`, Id `x y`, any name', name('and'), ('T', 'and'), 6),
    ('Id `and`, Id `x y`, any name', name('x y'), ('T', 'x y'), 6),
    (KEYWORD, name('order'), ('T', 'order'), 6),
    (KEYWORD, name('current_date'), ('T', 'current_date'), 6),
    (KEYWORD, Node(records.FUNCTION, '$', b'\7replace', [A]), ('T', 'replace(a)'), 6),
    ('dyadic Neg, IsNull, IsNotNull', two('Neg', A, B), ('T', 'a NOT b'), 5),
    ('dyadic Neg, IsNull, IsNotNull', two('IsNull', A, B), ('T', 'a IS NULL b'), 5),
    ('dyadic CaseI, monadic Eq, any operator in the other arity', two('CaseI', A, B), ('P', None), 5),
    ('dyadic CaseI, monadic Eq, any operator in the other arity', one('Eq', A), ('P', None), 5),
    ('an Interval outside a temporal operator', one('Neg', interval(A, B)), ('P', None), 7),
    ('TDuring(a, b) between instants', two('TDuring', A, B), ('P', None), 7),
    ('TAfter(a, [[b, c], d]): an Interval as an end that the text leaves out', two('TAfter', A, interval(interval(B, C), name('d'))), ('T', 'a > d'), 7),
    ('Str of a byte below 20 or the byte 7F, as a tab', text('\t'), ('T', "'\t'"), 6),
    ('Str of a byte below 20 or the byte 7F, as a tab', text('\x7f'), ('T', "'\x7f'"), 6),
    ('Num 10^15', num(10 ** 15), ('T', '1000000000000000'), 6),
    ('Num 10^-10', num(1, 10), ('T', '0.0000000001'), 6),
    ('Str of 4,097 bytes', text('x' * 4097), ('T', "'%s'" % ('x' * 4097)), 6),
    ('Spatial of 4,097 bytes', Node(records.SPATIAL, '$', bytes(4) + b'x' * 4097), ('T', "ST_GeomFromText('%s', 0)" % ('x' * 4097)), 6),
    ('a name of 65 bytes', name('x' * 65), ('T', 'x' * 65), 6),
    ('33 levels', nested(32, A), ('T', 'NOT (' * 31 + 'NOT a' + ')' * 31), 4),
    ('a tree of 32,774 bytes', array(*[NULL] * 5460, OPEN), ('T', '(%s)' % ', '.join(['NULL'] * 5460 + ["'-2021-01-01'"])), 2),
    ('a text of 65,536 bytes', array(*[OPEN] * 4368, name('x' * 14)), ('T', '(%s)' % ', '.join(["'-2021-01-01'"] * 4368 + ['x' * 14])), 8),
]

# The first cell of the row; the tree; the Rust's text; the text here; the value that SQLite reads in it.
APOSTROPHES = [
    ("Str `'`", text("'"), "'''", "''''", "'"),
    ("Str `O'Ring`", text("O'Ring"), "'O'Ring'", "'O''Ring'", "O'Ring"),
    ("Str `''`", text("''"), "''''", "''''''", "''"),
    ("Str `it's` with flags 1", text("it's", 1), "'it's' COLLATE NC", "'it''s' COLLATE NC", "it's"),
]

# The first cell of the row; the tree; its text; a row; what SQLite makes of the text; the tree's meaning in SQLite's words, and what it makes of that.
OTHER = [
    ('BETWEEN(a, [0, b = c]), a 5, b 9, c 1', two('IsBetween', A, array(num(0), two('Eq', B, C))), 'a BETWEEN 0 AND b = c', {'a': 5, 'b': 9, 'c': 1}, 1,
     'a BETWEEN 0 AND (b = c)', 0),
    ('BETWEEN(NOT a, [0, 1]), a 0', two('IsBetween', one('Neg', A), array(num(0), num(1))), 'NOT a BETWEEN 0 AND 1', {'a': 0}, 0,
     '(NOT a) BETWEEN 0 AND 1', 1),
    ('AEquals(NOT a, b), a 2, b 1', two('AEquals', one('Neg', A), B), 'NOT a = b', {'a': 2, 'b': 1}, 1, '(NOT a) = b', 0),
    ('CaseI(a = b), a `x`, b `X`', one('CaseI', two('Eq', A, B)), 'a = b COLLATE NC', {'a': 'x', 'b': 'X'}, 1, '(a = b) COLLATE NC', 0),
    ('TAfter(a, b > c), 3, 2, 1', two('TAfter', A, two('Gt', B, C)), 'a > b > c', {'a': 3, 'b': 2, 'c': 1}, 0, 'a > (b > c)', 1),
    ('TAfter(NOT a, b), a 1, b 2', two('TAfter', one('Neg', A), B), 'NOT a > b', {'a': 1, 'b': 2}, 1, '(NOT a) > b', 0),
    ('TEquals(.., ..)', two('TEquals', OPEN, OPEN), "'-2021-01-01' = '-2021-01-01'", {}, 1, None, None),
    ('TAfter(a, ..)', two('TAfter', A, OPEN), "a > '-2021-01-01'", {'a': '2024-01-01'}, 1, None, None),
    ('AccentI(CaseI(AccentI(a))), CaseI(CaseI(AccentI(a)))', one('AccentI', one('CaseI', one('AccentI', A))), 'a COLLATE NA COLLATE NCA', {'a': 'x'}, 'x', None, None),
    ('AccentI(CaseI(AccentI(a))), CaseI(CaseI(AccentI(a)))', two('Eq', one('CaseI', one('CaseI', one('AccentI', A))), text('cafe')),
     "(a COLLATE NCA COLLATE NC) = 'cafe'", {'a': 'café'}, 0, "(a COLLATE NCA) = 'cafe'", 1),
    ("IN(x, ['X' with flags 1, 'y'])", two('IsInList', text('x'), array(text('X', 1), text('y'))), "'x' IN ('X' COLLATE NC, 'y')", {}, 0,
     "'x' = 'X' COLLATE NC OR 'x' = 'y'", 1),
    ('= with a collation on both sides, or on one', two('Eq', one('AccentI', A), text('X', 1)), "(a COLLATE NA) = 'X' COLLATE NC", {'a': 'x'}, 0,
     "a COLLATE NC = 'X' COLLATE NC", 1),
    ('f(CaseI(a)), a `X`', Node(records.FUNCTION, '$', b'\5instr', [one('CaseI', A), text('x')]), "instr(a COLLATE NC, 'x')", {'a': 'X'}, 0,
     "instr(lower(a), 'x')", 1),
    ("LIKE(a, 'X'), a `x`", two('IsLike', A, text('X')), "a LIKE ('X')", {'a': 'x'}, 1, "a = 'X'", 0),
    (r"LIKE(a, '10\%'), a `10\5`", two('IsLike', A, text('10\\%')), "a LIKE ('10\\%')", {'a': '10\\5'}, 1, "a LIKE '10\\%' ESCAPE '\\'", 0),
    ("CaseI(a) LIKE CaseI('É'), a `é`", two('IsLike', one('CaseI', A), text('É', 1)), "(a COLLATE NC) LIKE ('É' COLLATE NC)", {'a': 'é'}, 0,
     "a COLLATE NC = 'É'", 1),
    ("AccentI(a) LIKE AccentI('cafe'), a `café`", two('IsLike', one('AccentI', A), text('cafe', 2)), "(a COLLATE NA) LIKE ('cafe' COLLATE NA)", {'a': 'café'}, 0,
     "a COLLATE NA = 'cafe'", 1),
    ('Exp, IntDiv, AContains, AContainedBy, AOverlaps', two('Exp', num(2), num(3)), '2 ^ 3', {}, 'unrecognized token: "^"', None, None),
    ('Exp, IntDiv, AContains, AContainedBy, AOverlaps', two('IntDiv', num(7), num(2)), '7 div 2', {}, 'near "2": syntax error', None, None),
    ('Exp, IntDiv, AContains, AContainedBy, AOverlaps', two('AContains', array(num(1), num(2)), array(num(1), num(2))), '(1, 2) @> (1, 2)', {},
     'unrecognized token: "@"', None, None),
    ('Exp, IntDiv, AContains, AContainedBy, AOverlaps', two('AContainedBy', A, B), 'a <@ b', ABC, 'unrecognized token: "@"', None, None),
    ('Exp, IntDiv, AContains, AContainedBy, AOverlaps', two('AOverlaps', A, B), 'a && b', ABC, 'near "&": syntax error', None, None),
    ('AEquals([], [])', two('AEquals', array(), array()), '() = ()', {}, 'near ")": syntax error', None, None),
    ('AEquals(a, [1, 2])', two('AEquals', A, array(num(1), num(2))), 'a = (1, 2)', ABC, 'row value misused', None, None),
    ('AEquals([1, 2], [2, 1])', two('AEquals', array(num(1), num(2)), array(num(2), num(1))), '(1, 2) = (2, 1)', {}, 0, None, None),
    ('Div(7, 2)', two('Div', num(7), num(2)), '7 / 2', {}, 3, '7 / 2.0', 3.5),
    ('Mod(7.5, 2)', two('Mod', num(75, 1), num(2)), '7.5 % 2', {}, 1.0, None, None),
    ('IN(a, [b, 2]) (sheet F)', two('IsInList', A, array(B, num(2))), 'a IN ((b, 2))', ABC, 'row value misused', None, None),
    ('IN(a, b)', two('IsInList', A, B), 'a IN b', ABC, 'no such table: b', None, None),
    ('NOT TAfter(a, [b, c]), b NULL', one('Neg', two('TAfter', A, interval(B, C))), 'NOT ("b" IS NOT NULL AND (a > c))', {'a': '2', 'b': None, 'c': '1'}, 1,
     'NOT (a > c AND b < c)', None),
    ('NOT TIntersects(a, [b, c]), a 1, b 2, c NULL', one('Neg', two('TIntersects', A, interval(B, C))), 'NOT (NOT((a < b) OR (a > c)))',
     {'a': '1', 'b': '2', 'c': None}, 1, None, None),
    ('TAfter(a, [NULL, b]), a 2, b 1', two('TAfter', A, interval(NULL, B)), 'a > b', {'a': '2', 'b': '1'}, 1, None, None),
    ('an Id that the table lacks, guarded', two('TAfter', A, interval(name('zz'), C)), '"zz" IS NOT NULL AND (a > c)', {'a': '2', 'c': '1'}, 1, None, None),
    ('an open end, `..`', two('TIntersects', A, interval(date(2026, 3, 20), OPEN)), "NOT((a < '2026-03-20') OR (a > '-2021-01-01'))", {'a': '2026-03-21'}, 0,
     "NOT((a < '2026-03-20') OR (a > '9999-12-31'))", 1),
    ('an interval whose end lies before its start', two('TIntersects', A, interval(date(2024, 12, 1), date(2024, 1, 1))),
     "NOT((a < '2024-12-01') OR (a > '2024-01-01'))", {'a': '2024-06-01'}, 0, None, None),
]

# The first cell of the row; the tree; its text by each call.
NOON, MIDNIGHT = stamp(2024, 2, 29, 12, 0, 0), stamp(2024, 2, 29, 0, 0, 0)
BY_CALL = [
    ('Timestamp 2024-02-29 12:00:00', NOON, "'2024-02-29T12:00:00'", "'2024-02-29T12:00:00.000Z'"),
    ('Date 2024-02-29', date(2024, 2, 29), "'2024-02-29'", "'2024-02-29'"),
    ('Unbounded', OPEN, "'-2021-01-01'", "'-2021-01-01'"),
    ('Str `2024-02-29T12:00:00`', text('2024-02-29T12:00:00'), "'2024-02-29T12:00:00'", "'2024-02-29T12:00:00'"),
]
# The first cell of the row; the tree; its text by each call; what SQLite makes of each on STAY.
STAY = {'a': '2024-02-29T12:00:00.000Z', 'b': '2024-02-29T12:30:45.500Z'}
OPEN_BY_CALL = [
    ('TIntersects([a, ..], b): is what came at a, and has not left, there at b?', two('TIntersects', interval(A, OPEN), B),
     "NOT(('-2021-01-01' < b) OR (a > b))", "NOT(('A' < b) OR (a > b))", 0, 1),
    ('TAfter(b, [a, ..])', two('TAfter', B, interval(A, OPEN)), '"a" IS NOT NULL AND (b > \'-2021-01-01\')', '"a" IS NOT NULL AND (b > \'A\')', 1, 0),
    ('TBefore([a, ..], b)', two('TBefore', interval(A, OPEN), B), '"a" IS NOT NULL AND (\'-2021-01-01\' < b)', '"a" IS NOT NULL AND (\'A\' < b)', 1, 0),
    ('TMeets([a, ..], [.., b])', two('TMeets', interval(A, OPEN), interval(OPEN, B)),
     '"a" IS NOT NULL AND "b" NOT NULL AND (\'-2021-01-01\' = \'-2021-01-01\')', '"a" IS NOT NULL AND "b" NOT NULL AND (\'A\' = \'-2021-01-01\')', 1, 0),
    ('TEquals([.., ..], ..)', two('TEquals', interval(OPEN, OPEN), OPEN), "('-2021-01-01' = '-2021-01-01') AND ('-2021-01-01' = '-2021-01-01')",
     "('-2021-01-01' = '-2021-01-01') AND ('A' = '-2021-01-01')", 1, 0),
    ('TBefore([.., ..], b)', two('TBefore', interval(OPEN, OPEN), B), "'-2021-01-01' < b", "'A' < b", 1, 0),
    ('TDuring([a, b], [.., ..])', two('TDuring', interval(A, B), interval(OPEN, OPEN)),
     "(a > '-2021-01-01') AND (b < '-2021-01-01')", "(a > '-2021-01-01') AND (b < 'A')", 0, 1),
]
# The first cell of the row; the tree; what the Rust makes of it reduced, T and its text or E for an error; the text here, or the refusal.
DAY = date(2024, 2, 29)
REDUCED = [
    ('Minus(0)', one('Minus', num(0)), ('T', '-0'), '0'), ('Minus(0)', one('Minus', one('Minus', num(0))), ('T', '0'), '0'),
    ('1 = 1, any comparison of two literals', two('Eq', num(1), num(1)), ('T', 'TRUE'), 14),
    ('a date = the timestamp of its midnight', two('Eq', DAY, MIDNIGHT), ('T', 'TRUE'), 14),
    ('1 + 2, any arithmetic of two numbers', two('Plus', num(1), num(2)), ('T', '3'), 14),
    ('1 / 0', two('Div', num(1), num(0)), ('T', 'inf'), 14), ('7 div 2', two('IntDiv', num(7), num(2)), ('T', '1'), 14),
    ("'ax' LIKE 'a%'", two('IsLike', text('ax'), text('a%')), ('T', 'TRUE'), 14),
    ('1 IN 1, an array operator of two literals', two('IsInList', num(1), num(1)), ('E', None), 14),
    ('1 IN 1, an array operator of two literals', two('AContains', num(1), num(1)), ('E', None), 14),
    ('TAfter of a date and a Str', two('TAfter', DAY, text('2024-02-29')), ('E', None), 14),
]
# The first cell of the row; the tree; its text as it is and reduced; a row; what SQLite makes of each.
BEFORE_AND_AFTER = [
    ('TEquals(2024-02-29, 2024-02-29T00:00:00)', two('TEquals', DAY, MIDNIGHT), "'2024-02-29' = '2024-02-29T00:00:00'", 'TRUE', {}, 0, 1),
    ('TBefore(2024-02-29, 2024-02-29T00:00:00)', two('TBefore', DAY, MIDNIGHT), "'2024-02-29' < '2024-02-29T00:00:00'", 'FALSE', {}, 1, 0),
    ('TAfter(NULL, [a, b]), a NULL', two('TAfter', NULL, interval(A, B)), '"a" IS NOT NULL AND (NULL > b)', 'NULL', ABC, 0, None),
    ('a = NULL, on a table without a', two('Eq', A, NULL), 'a = (NULL)', 'NULL', {}, 'no such column: a', None),
    ("CaseI('X' with flags 2) = a, a `x`", two('Eq', one('CaseI', text('X', 2)), A), "('X' COLLATE NA COLLATE NC) = a", "'X' COLLATE NCA = a", {'a': 'x'}, 1, 1),
    ("CaseI(CaseI(AccentI(a))) = 'cafe', a `café`", two('Eq', one('CaseI', one('CaseI', one('AccentI', A))), text('cafe')),
     "(a COLLATE NCA COLLATE NC) = 'cafe'", "(a COLLATE NCA) = 'cafe'", {'a': 'café'}, 0, 1),
]
# A value; the instant that it is compared with; how the value lies to it as each call writes it, by the first word of the row's cells.
LIES = [
    ('2024-02-29T12:00:00.000Z', NOON, 'above', 'equal'), ('2024-02-29T12:00:00', NOON, 'equal', 'below'), ('2024-02-29T12:00:00Z', NOON, 'above', 'above'),
    ('2024-02-29T12:00:00.000000Z', NOON, 'above', 'below'), ('2024-02-29 12:00:00', NOON, 'below', 'below'), ('2024-02-29', MIDNIGHT, 'below', 'below'),
]

# The first cell of the row; a text; the column a as declared; its value; what SQLite makes of the text.
DECLARED = [
    ("a column declared DATE, `entry < '9999'`", "a < '9999'", 'DATE', '2024-01-01', 0),
    ('a written instant beside instants of another form', "a = '2026-03-01T12:00:00'", 'DATETIME', '2026-03-01T12:00:00.000Z', 0),
    ('a written instant beside instants of another form', "a > '2026-03-01T12:00:00'", 'DATETIME', '2026-03-01T12:00:00.000Z', 1),
    ('a written instant beside instants of another form', "a = '2026-03-01T12:00:00.000Z'", 'DATETIME', '2026-03-01T12:00:00', 0),
    ('a written instant beside instants of another form', "a < '2026-03-01T12:00:00.000Z'", 'DATETIME', '2026-03-01T12:00:00', 1),
    ('a date beside a timestamp', "a = '2026-03-01T00:00:00'", 'DATE', '2026-03-01', 0),
    ('a date beside a timestamp', "a < '2026-03-01T00:00:00'", 'DATE', '2026-03-01', 1),
    ('a column of another declared type', "a < '2024-02-29'", 'INTEGER', 20260301, 1),
    ('a column of another declared type', 'a < 10', 'TEXT', '9', 0),
    ('a column of another declared type', 'a + 1', 'TEXT', 'x', 1),
]


def asked(expression, row, kind=''):
    """What SQLite makes of an expression on a row; its error as a text."""
    connection = sqlite3.connect(':memory:')
    for word, key in zip(('NC', 'NA', 'NCA'), (str.lower, without_accents, lambda x: without_accents(x.lower()))):
        connection.create_collation(word, collation(key))
    columns = row or {'x': None}
    try:
        connection.execute('CREATE TABLE t (%s)' % ', '.join('%s %s' % (column, kind) for column in columns))
        connection.execute('INSERT INTO t VALUES (%s)' % ', '.join('?' * len(columns)), list(columns.values()))
        return connection.execute('SELECT %s FROM t' % expression).fetchone()[0]
    except sqlite3.Error as e:
        return str(e)
    finally:
        connection.close()


class Differences(unittest.TestCase):
    @classmethod
    def setUpClass(cls):
        proved.build(['lower', 'lower_reduced', 'read'])
        with open(os.path.join(proved.ROOT, 'docs', 'DIFFERENCES.md'), encoding='utf-8') as f:
            cls.rows = [line.split(' | ') for line in f.read().split('\n') if line.startswith('| ')]

    def row(self, first):
        """The row of the document that begins with this cell."""
        found = [row for row in self.rows if row[0] == '| ' + first]
        self.assertEqual(len(found), 1, first)
        return ' | '.join(found[0])

    def lower(self, trees, writing=RUST, reduced=False):
        return proved.run(reducing.PROGRAM[reduced], [(SETTINGS, tree.encode()) for tree in trees], ARGUMENTS[writing])

    def test_refused_here(self):
        for (first, _, (_, words), number), line in zip(REFUSED, self.lower(case[1] for case in REFUSED)):
            with self.subTest(first):
                self.assertEqual(lowering.refusal_of(line), number)
                row = self.row(first)
                self.assertTrue(row.endswith('| %d |' % number), row)
                self.assertTrue(words is None or len(words) > 40 or '`%s`' % words in row or not words.isprintable(), row)

    @unittest.skipUnless(rust.program(), rust.MISSING)
    def test_taken_by_the_rust(self):
        told = rust.answers([(SETTINGS, case[1].encode()) for case in REFUSED])
        for (first, _, (letter, words), _), answer in zip(REFUSED, told):
            with self.subTest(first):
                self.assertEqual(answer if words is not None else answer[:1], (letter, words) if words is not None else (letter,))

    def test_apostrophes(self):
        for (first, _, rusts, words, value), line in zip(APOSTROPHES, self.lower(case[1] for case in APOSTROPHES)):
            with self.subTest(first):
                self.assertEqual((line, asked(words, {})), (words, value))
                self.assertNotEqual(asked(rusts, {}), value)
                self.assertTrue(all('`%s`' % one in self.row(first) for one in (rusts, words)))

    @unittest.skipUnless(rust.program(), rust.MISSING)
    def test_apostrophes_of_the_rust(self):
        told = rust.answers([(SETTINGS, case[1].encode()) for case in APOSTROPHES])
        self.assertEqual(told, [('T', case[2]) for case in APOSTROPHES])

    def test_reduced(self):
        for (first, _, (_, words), due), line in zip(REDUCED, self.lower((case[1] for case in REDUCED), reduced=True)):
            with self.subTest(first):
                self.assertEqual(line, 'refused %d' % due if isinstance(due, int) else due)
                row = self.row(first)
                self.assertTrue('| %s' % due in row.replace('`', '') and (words is None or '`%s`' % words in row), row)

    @unittest.skipUnless(rust.program(), rust.MISSING)
    def test_reduced_by_the_rust(self):
        told = rust.answers([(SETTINGS, case[1].encode()) for case in REDUCED + BEFORE_AND_AFTER], 'reduce')
        for case, answer in zip(REDUCED, told):
            with self.subTest(case[0]):
                self.assertEqual(answer if case[2][1] is not None else answer[:1], case[2] if case[2][1] is not None else case[2][:1])
        self.assertEqual(told[len(REDUCED):], [('T', case[3]) for case in BEFORE_AND_AFTER])

    def test_before_and_after_reducing(self):
        trees = [case[1] for case in BEFORE_AND_AFTER]
        for (first, _, *texts, row, plain, other), *lines in zip(BEFORE_AND_AFTER, self.lower(trees), self.lower(trees, reduced=True)):
            with self.subTest(first):
                self.assertEqual(lines, texts)
                self.assertEqual([asked(words, row) for words in texts], [plain, other])
                for cell, words, found in zip(self.row(first).split(' | ')[1:], texts, (plain, other)):
                    said = 'unknown' if found is None else found.split(':')[0] if isinstance(found, str) else found
                    self.assertTrue(cell.startswith('`%s`: %s' % (words, said)), cell)

    def test_timestamps_by_call(self):
        trees = [case[1] for case in BY_CALL]
        for (first, _, *due), *lines in zip(BY_CALL, self.lower(trees), self.lower(trees, GEOPACKAGE)):
            with self.subTest(first):
                self.assertEqual(lines, due)
                for cell, words in zip(self.row(first).split(' | ')[1:], due):
                    self.assertTrue(cell.startswith('`%s`' % words), cell)

    def test_open_ends_by_call(self):
        trees = [case[1] for case in OPEN_BY_CALL]
        for (first, _, *texts, one, other), *lines in zip(OPEN_BY_CALL, self.lower(trees), self.lower(trees, GEOPACKAGE)):
            with self.subTest(first):
                self.assertEqual(lines, texts)
                self.assertEqual([[asked(words, STAY, kind) for words in texts] for kind in ('DATETIME', 'TEXT')], [[one, other]] * 2)
                for cell, words, found in zip(self.row(first).split(' | ')[1:], texts, (one, other)):
                    self.assertTrue(cell.startswith('`%s`: %d' % (words, found)), cell)

    @unittest.skipUnless(rust.program(), rust.MISSING)
    def test_timestamps_and_open_ends_of_the_rust(self):
        told = rust.answers([(SETTINGS, case[1].encode()) for case in BY_CALL + OPEN_BY_CALL])
        self.assertEqual(told, [('T', case[2]) for case in BY_CALL + OPEN_BY_CALL])

    def test_values_beside_timestamps(self):
        signs = {'Lt': 'below', 'Eq': 'equal', 'Gt': 'above'}
        for (value, tree, *lies), (operator, word) in itertools.product(LIES, signs.items()):
            cells = self.row('`%s`%s' % (value, ', against midnight' if tree is MIDNIGHT else '')).strip(' |').split(' | ')[1:]
            for writing, due, cell in zip((RUST, GEOPACKAGE), lies, cells):
                [words] = self.lower([two(operator, A, tree)], writing)
                self.assertEqual([asked(words, {'a': value}, kind) for kind in ('DATETIME', 'TEXT')], [due == word] * 2, (value, words))
                self.assertTrue(cell.startswith(due), cell)

    def test_texts(self):
        for (first, _, words, *_), line in zip(OTHER, self.lower(case[1] for case in OTHER)):
            with self.subTest(first):
                self.assertEqual(line, words)
                self.assertIn('`%s`' % words, self.row(first))

    @unittest.skipUnless(rust.program(), rust.MISSING)
    def test_texts_of_the_rust(self):
        for case, answer in zip(OTHER, rust.answers([(SETTINGS, case[1].encode()) for case in OTHER])):
            with self.subTest(case[0]):
                self.assertEqual(answer, ('T', case[2]))

    def test_what_sqlite_makes_of_them(self):
        for first, _, words, row, found, meaning, right in OTHER:
            with self.subTest(first):
                self.assertEqual(asked(words, row), found)
                if meaning:
                    self.assertEqual(asked(meaning, row), right)
                    self.assertNotEqual(found, right)

    def test_declared_columns(self):
        for first, words, kind, value, found in DECLARED:
            with self.subTest(first):
                self.assertEqual(asked(words, {'a': value}, kind), found)
                self.row(first)


if __name__ == '__main__':
    unittest.main()
