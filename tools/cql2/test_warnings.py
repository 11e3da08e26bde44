"""Tests of the warnings: each of the table is given at its place, stands in docs/DIFFERENCES.md, and is run: SQLite picks other rows than CQL2 does, or
cannot run the text; the way out has no warning and picks the right rows. Filters that are fine have none, nor has an open end in GeoPackage's writing."""
import itertools
import json
import os
import re
import sqlite3
import subprocess
import tempfile
import unittest

from demo import log

from . import columns, differences, geopackage, looking, proved, records, spatialite
from .reading import read_filter
from .test_errors import run
from .test_geopackage import COLLATIONS, PICKS
from .test_silence import INSTANTS
from .test_texts import A, B, C, D, DAY, SETTINGS, interval, op, point, sql_of, tree_of
from .writing import ARGUMENTS

TEXT, INTEGER, DATE = 'TEXT', 'INTEGER', 'DATE'
F = {'property': 'fid'}
UTF_16 = 'a GeoPackage whose texts are UTF-16'
FORM = 'a written instant beside instants of another form'


def casei(x):
    return op('casei', x)


def accenti(x):
    return op('accenti', x)


def stamp(text):
    return {'timestamp': text}


NOON = stamp('2026-03-01T12:00:00Z')
SHORT, LONG = '2026-03-01T12:00:00', '2026-03-01T12:00:00.000Z'


def there(*columns):
    return [op('not', op('isNull', x)) for x in columns]


# entry of DIFFERENCES; filter; its places; columns a, b, c as declared; rows; the rows by CQL2 (numbered from 1); the rows by SQLite, or its error;
# a way out that picks the rows by CQL2, or a filter with the rows that it picks
CASES = [
    ('NOT TAfter(a, [b, c]), b NULL', op('not', op('t_after', A, interval(B, C))), ['$.args[0]'], [TEXT] * 3,
     [['2', None, '1'], ['1', '2', '3'], ['4', '2', '3']], [2], [1, 2], op('and', *there(B), op('not', op('t_after', A, interval(B, C))))),
    ('NOT TAfter(a, [b, c]), b NULL', op('not', op('t_intersects', A, interval(B, C))), ['$.args[0]'], [TEXT] * 3,
     [['1', '2', None], ['1', '2', '3'], ['2', '2', '3']], [2], [1, 2], op('and', *there(B, C), op('not', op('t_intersects', A, interval(B, C))))),
    ('NOT TAfter(a, [b, c]), b NULL', op('isNull', op('t_disjoint', A, interval(B, C))), ['$.args[0]'], [TEXT] * 3, [['2', None, None]], [1], [], None),
    ('TAfter(a, [NULL, b]), a 2, b 1', op('t_after', A, interval(None, B)), ['$.args[1].interval[0]'], [TEXT] * 2, [['2', '1']], [], [1], None),
    ('TAfter(a, [NULL, b]), a 2, b 1', op('t_disjoint', A, interval(B, None)), ['$.args[1].interval[1]'], [TEXT] * 2, [['1', '2']], [], [1], None),
    ('an interval whose end lies before its start', op('t_disjoint', A, interval('2024-12-01', '2024-01-01')), ['$.args[1].interval'], [TEXT],
     [['2024-06-01']], [], [1], op('t_disjoint', A, interval('2024-01-01', '2024-12-01'))),
    (FORM, op('t_after', A, {'date': '2026-03-01'}), ['$.args[1]'], ['DATETIME'], [['2026-03-01T00:00:00.000Z']], [], [1],
     op('t_after', A, stamp('2026-03-01T00:00:00Z'))),
    (FORM, op('in', A, [NOON]), ['$.args[1][0]'], ['DATETIME'], [['2026-03-01T12:00:00Z'], ['2026-03-01T12:00:00.000Z']], [1, 2], [2], None),
    ('a date beside a timestamp', op('t_equals', A, stamp('2026-03-01T00:00:00Z')), ['$.args[1]'], [DATE], [['2026-03-01']], [1], [],
     op('t_equals', A, {'date': '2026-03-01'})),
    ('a date beside a timestamp', op('t_during', interval(A, B), interval('2026-03-01', '2026-03-02T12:00:00Z')), ['$.args[1].interval[1]'], [TEXT] * 2,
     [['2026-03-01T00:00:00.000Z', '2026-03-02T11:00:00.000Z']], [], [1],
     op('t_during', interval(A, B), interval('2026-03-01T00:00:00Z', '2026-03-02T12:00:00Z'))),
    ("a column declared DATE, `entry < '9999'`", op('<', A, '9999'), ['$.args[1]'], [DATE], [['2026-03-01']], [1], [], op('<', A, {'date': '9999-12-31'})),
    ('a column of another declared type', op('t_after', A, DAY), ['$.args[0]'], [INTEGER], [[20260301]], None, [], None),
    ('a column of another declared type', op('<', A, 10), ['$.args[0]'], [TEXT], [['9']], None, [], None),
    ('a column of another declared type', op('between', A, 5, 20), ['$.args[0]'], [TEXT], [['6']], None, [], None),
    ('a column of another declared type', op('<', A, 'abc'), ['$.args[0]'], [INTEGER], [[5]], None, [1], (op('<', A, 10), [1])),
    ('a column of another declared type', op('=', op('+', A, 1), 1), ['$.args[0].args[0]'], [TEXT], [['x']], None, [1], None),
    ('a column of another declared type', op('not', A), ['$.args[0]'], [TEXT], [['true']], None, [1], None),
    ("LIKE(a, 'X'), a `x`", op('like', A, 'X%'), ['$.args[1]'], [TEXT], [['xy'], ['Xy']], [2], [1, 2], None),
    ("LIKE(a, 'X'), a `x`", op('like', casei(A), 'X%'), ['$.args[1]'], [TEXT], [['xy']], [], [1], (op('like', casei(A), casei('X%')), [1])),
    ("CaseI(a) LIKE CaseI('É'), a `é`", op('like', casei(A), casei('É%')), ['$.args[1]'], [TEXT], [['été'], ['Été']], [1, 2], [2],
     (op('like', casei(A), casei('_t%')), [1, 2])),
    ("CaseI(a) LIKE CaseI('É'), a `é`", op('like', A, casei('É')), ['$.args[1]'], [TEXT], [['é'], ['É']], [1], [2], op('=', A, 'é')),
    ("AccentI(a) LIKE AccentI('cafe'), a `café`", op('like', casei(accenti(A)), casei(accenti('caf%'))), ['$.args[1]'], [TEXT],
     [['cáfe'], ['cafe']], [1, 2], [2], None),
    (r"LIKE(a, '10\%'), a `10\5`", op('like', A, '10\\%'), ['$.args[1]'], [TEXT], [['10%'], ['10\\5']], [1], [2], None),
    ('AccentI(CaseI(AccentI(a))), CaseI(CaseI(AccentI(a)))', op('=', casei(casei(accenti(A))), accenti(casei('cafe'))), ['$.args[0]'], [TEXT],
     [['Café'], ['CAFE']], [1, 2], [2], op('=', casei(accenti(A)), accenti(casei('cafe')))),
    ('= with a collation on both sides, or on one', op('=', casei(A), accenti('X')), ['$'], [TEXT], [['x'], ['X']], [], [1, 2], (op('=', casei(A), casei('X')), [1, 2])),
    ('= with a collation on both sides, or on one', op('=', A, casei('x')), ['$'], [TEXT], [['x'], ['X']], [1], [1, 2], op('=', A, 'x')),
    ('= with a collation on both sides, or on one', op('=', accenti(A), 'é'), ['$'], [TEXT], [['e'], ['é']], [], [1, 2],
     (op('=', accenti(A), 'e'), [1, 2])),
    ("IN(x, ['X' with flags 1, 'y'])", op('in', A, [casei('x'), 'y']), ['$.args[1][0]'], [TEXT], [['x'], ['X']], None, [1],
     (op('in', casei(A), [casei('x'), casei('y')]), [1, 2])),
    ('a column declared with a collation', op('=', A, 'x'), ['$.args[0]'], ['TEXT COLLATE NOCASE'], [['x'], ['X']], [1], [1, 2],
     (op('=', casei(A), casei('x')), [1, 2])),
    ('f(CaseI(a)), a `X`', op('=', op('instr', casei(A), 'x'), 1), ['$.args[0].args[0]'], [TEXT], [['X']], [1], [], None),
    ('Div(7, 2)', op('=', op('/', A, 2), 3.5), ['$.args[0]'], [INTEGER], [[7]], [1], [], op('=', op('*', A, 0.5), 3.5)),
    ('Div(7, 2)', op('=', A, op('/', 7, 2)), ['$.args[1]'], ['REAL'], [[3.5]], [1], [], op('=', A, op('*', 7, 0.5))),
    ('Mod(7.5, 2)', op('=', op('%', A, 2), 1.5), ['$.args[0]'], ['REAL'], [[7.5]], [1], [], None),
    ('AEquals([1, 2], [2, 1])', op('a_equals', [1, 2], [2, 1]), ['$'], [TEXT], [['x']], [1], [], op('a_equals', [1], [1])),
    ('Exp, IntDiv, AContains, AContainedBy, AOverlaps', op('=', A, op('^', 2, 3)), ['$.args[1]'], [INTEGER], [[8]], [1], 'unrecognized token: "^"', op('=', A, 8)),
    ('Exp, IntDiv, AContains, AContainedBy, AOverlaps', op('=', A, op('div', 7, 2)), ['$.args[1]'], [INTEGER], [[3]], [1], 'near "div": syntax error', None),
    ('Exp, IntDiv, AContains, AContainedBy, AOverlaps', op('a_contains', A, [1]), ['$'], [TEXT], [['x']], None, 'unrecognized token: "@"', None),
    ('Exp, IntDiv, AContains, AContainedBy, AOverlaps', op('a_containedBy', A, [1]), ['$'], [TEXT], [['x']], None, 'unrecognized token: "@"', None),
    ('Exp, IntDiv, AContains, AContainedBy, AOverlaps', op('a_overlaps', A, [1]), ['$'], [TEXT], [['x']], None, 'near "&": syntax error', None),
    ('AEquals(a, [1, 2])', op('a_equals', A, [1, 2]), ['$'], [TEXT], [['x']], None, 'row value misused', None),
    ('AEquals(a, [1, 2])', op('a_equals', [], []), ['$'], [TEXT], [['x']], None, 'near ")": syntax error', None),
    ('IN(a, [b, 2]) (sheet F)', op('in', A, [B, 2]), ['$.args[1][0]'], [INTEGER] * 2, [[1, 1]], [1], 'row value misused', op('or', op('=', A, B), op('=', A, 2))),
]

# Open ends, as above but for the entry: the rows by SQLite, and the way out, are those of the Rust's writing; in GeoPackage's the rows are CQL2's.
OPEN_END = 'an open end, `..`'
OPEN_ENDS = [
    (op('t_intersects', A, interval('2026-03-20', '..')), ['$.args[1].interval[1]'], [TEXT], [['2026-03-19'], ['2026-03-20'], ['2026-03-21']], [2, 3], [],
     op('t_intersects', A, interval('2026-03-20', '9999-12-31'))),
    (op('t_before', interval(A, '..'), DAY), ['$.args[0].interval[1]'], [TEXT], [['2024-01-01']], [], [1], op('t_before', interval(A, '9999-12-31'), DAY)),
    (op('t_meets', interval(A, '..'), interval('..', DAY)), ['$.args[0].interval[1]'], [TEXT], [['2024-01-01']], [], [1], None),
    (op('t_metBy', interval('..', DAY), interval(A, '..')), ['$.args[1].interval[1]'], [DATE], [['2024-01-01']], [], [1], None),
    (op('t_after', A, interval(B, '..')), ['$.args[1].interval[1]'], [DATE] * 2, [['2026-03-20', '2026-03-19']], [], [1],
     op('t_after', A, interval(B, '9999-12-31'))),
    (op('t_disjoint', A, interval('..', '..')), ['$.args[1].interval[1]'], [DATE], [['2026-03-20']], [], [1],
     op('t_disjoint', A, interval('..', '9999-12-31'))),
    (op('t_during', interval(A, B), interval('2026-03-01', '..')), ['$.args[1].interval[1]'], [DATE] * 2,
     [['2026-03-02', '2026-03-03'], ['2026-03-01'] * 2], [1], [], op('t_during', interval(A, B), interval('2026-03-01', '9999-12-31'))),
    (op('t_contains', interval(A, '..'), interval(B, C)), ['$.args[0].interval[1]'], [DATE] * 3, [['2026-03-01', '2026-03-02', '2026-03-03']], [1], [],
     op('t_contains', interval(A, '9999-12-31'), interval(B, C))),
    (op('t_starts', interval(A, B), interval(C, '..')), ['$.args[1].interval[1]'], [DATE] * 3, [['2026-03-01', '2026-03-02', '2026-03-01']], [1], [],
     op('t_starts', interval(A, B), interval(C, '9999-12-31'))),
    (op('t_overlaps', interval(A, B), interval(C, '..')), ['$.args[1].interval[1]'], [DATE] * 3, [['2026-03-01', '2026-03-03', '2026-03-02']], [1], [],
     op('t_overlaps', interval(A, B), interval(C, '9999-12-31'))),
    (op('t_intersects', interval(A, '..'), interval(B, '..')), ['$.args[0].interval[1]', '$.args[1].interval[1]'], ['DATETIME'] * 2, [[LONG, LONG]],
     [1], [], None),
]

# Columns a that hold noon in one form or several, as declared and with their values: by each writing how a value lies to its own instant as written,
# and what the warning says of the way out.
RIGHT = {'equal': None, 'above': (('>=', '<', 't_before'), ('<=', '>', 't_after')), 'below': (('<=', '>', 't_after'), ('>=', '<', 't_before')),
         'above or below': ((), ())}    # the operators (the column first, then the written instant first) that are right on every row and have no warning
ONE_FORM, TO_RUST, TO_GEOPACKAGE = 'have the columns hold instants in one form, as ' + LONG, 'take --writing rust', 'take --writing geopackage'
FORMS = [
    ('DATETIME', [LONG], {'rust': ('above', TO_GEOPACKAGE), 'geopackage': ('equal', '')}),
    ('TEXT', [LONG], {'rust': ('above', TO_GEOPACKAGE), 'geopackage': ('equal', '')}),
    ('DATE', [LONG], {'rust': ('above', TO_GEOPACKAGE), 'geopackage': ('equal', '')}),
    ('DATETIME', [SHORT], {'rust': ('equal', ''), 'geopackage': ('below', TO_RUST)}),
    ('', [SHORT], {'rust': ('equal', ''), 'geopackage': ('below', TO_RUST)}),
    ('TEXT', [SHORT, LONG], {'rust': ('above', ONE_FORM), 'geopackage': ('below', ONE_FORM)}),
    ('TEXT', ['2026-03-01T12:00:00Z'], {'rust': ('above', ONE_FORM), 'geopackage': ('above or below', ONE_FORM)}),
    ('TEXT', ['2026-03-01T12:00:00+00:00'], {'rust': ('above or below', ONE_FORM), 'geopackage': ('above or below', ONE_FORM)}),
    ('TEXT', ['2026-03-01T12:00Z', LONG], {'rust': ('above or below', ONE_FORM), 'geopackage': ('above or below', ONE_FORM)}),
    ('TEXT', ['2026-03-01T12:00:00 CET'], {'rust': ('above or below', ONE_FORM), 'geopackage': ('above or below', ONE_FORM)}),
    ('TEXT', ['2026-03-01 12:00:00'], {'rust': ('above or below', ONE_FORM), 'geopackage': ('above or below', ONE_FORM)}),
    ('TEXT', ['2026-03-01T12:00'], {'rust': ('below', ONE_FORM), 'geopackage': ('below', ONE_FORM)}),
]
AROUND = ['2026-03-01T11:59:59', '2026-03-01T12:00:01']    # in the forms of each column too

FINE = [    # a filter, and the columns as declared; no warning with them, nor without a table
    (op('=', A, 1), [INTEGER]), (op('=', A, 'x'), [TEXT]), (op('<', A, DAY), [DATE]), (op('and', op('=', A, 'x'), op('isNull', B)), [TEXT, DATE]),
    (op('t_intersects', A, interval('..', '2024-01-01')), [DATE]), (op('t_equals', interval(A, '..'), interval(B, '..')), [DATE] * 2),
    (op('t_before', A, interval('2024-01-01', '..')), [DATE]), (op('t_after', interval(A, '..'), DAY), [DATE]),
    (op('t_after', A, interval(B, C)), [DATE] * 3), (op('not', op('not', op('t_after', A, interval(B, C)))), [DATE] * 3),
    (op('not', op('t_after', A, DAY)), [DATE]), (op('not', op('t_intersects', A, interval('2024-01-01', '2024-02-01'))), [DATE]),
    (op('or', op('isNull', B), op('not', op('t_after', A, interval(B, C)))), [DATE] * 3),
    (op('t_disjoint', A, interval('2024-01-01', '2024-01-01')), [DATE]), (op('like', A, '10%'), [TEXT]), (op('like', casei(A), casei('x%')), [TEXT]),
    (op('=', casei(A), casei('X')), [TEXT]), (op('=', casei(A), 'x'), [TEXT]), (op('=', accenti(A), 'X'), [TEXT]),
    (op('=', casei(accenti(A)), accenti(casei('X'))), [TEXT]),
    (op('in', casei(A), [casei('X'), casei('y')]), [TEXT]), (op('in', A, ['x', 'y']), [TEXT]), (op('in', A, [B]), [INTEGER] * 2), (op('in', A, []), [TEXT]),
    (op('=', A, op('/', 6, 2)), [INTEGER]), (op('=', A, op('*', B, 0.5)), ['REAL', INTEGER]), (op('between', A, 1, op('+', B, 2)), [INTEGER] * 2),
    (op('not', op('s_intersects', A, point(1, 2))), ['POINT']), (op('and', *there(A), op('s_intersects', A, point(1, 2))), ['POINT']),
    (op('=', {'property': 'keys'}, 1), None), (op('=', A, True), ['BOOLEAN']), (True, [TEXT]), (op('>=', A, stamp('2026-03-01T12:00:00Z')), ['DATETIME']),
    (op('=', A, '2024-01-01'), [DATE]), (op('not', A), ['BOOLEAN']), (A, [INTEGER]), (op('=', A, "O'Ring 5 mm"), [TEXT]),
    (op('or', op('=', A, 'Flügel'), op('<', A, "''")), [TEXT]), (op('like', A, "%ü'%"), [TEXT]), (op('like', A, '🔩_'), [TEXT]),
    (op('=', casei(A), casei('FLÜGEL')), [TEXT]), (op('=', casei(A), 'flügel'), [TEXT]), (op('in', A, ["'", 'é']), [TEXT]),
]


def seconds(value):
    """An instant without what stands behind its seconds."""
    found = re.match('[^Z.+]*', value)[0].replace(' ', 'T')
    return found + ':00' if len(found) == 16 else found


class Warnings(unittest.TestCase):
    @classmethod
    def setUpClass(cls):
        proved.build(['lower', 'read'])
        cls.folder = tempfile.TemporaryDirectory()
        cls.made = 0

    @classmethod
    def tearDownClass(cls):
        cls.folder.cleanup()

    def package(self, kinds, rows, encoding='UTF-8'):
        """A GeoPackage with a table t of the columns fid, a, b, c."""
        type(self).made += 1
        path = os.path.join(self.folder.name, '%d.gpkg' % self.made)
        connection = sqlite3.connect(path)
        connection.execute("PRAGMA encoding = '%s'" % encoding)
        connection.executescript('PRAGMA application_id = 0x47504B47; CREATE TABLE gpkg_contents (table_name, data_type); '
                                 "INSERT INTO gpkg_contents VALUES ('t', 'attributes'); CREATE TABLE t (fid INTEGER PRIMARY KEY, %s)"
                                 % ', '.join('%s %s' % x for x in zip('abc', kinds)))
        connection.executemany('INSERT INTO t VALUES (%s)' % ', '.join('?' * (len(kinds) + 1)), [[k, *row] for k, row in enumerate(rows, 1)])
        connection.commit()
        connection.close()
        return path

    def told(self, data, *words, status=0):
        """The text and the lines on standard error."""
        done = run('-', '--function', 'instr', *words, data=json.dumps(data).encode())
        self.assertEqual(done.returncode, status, done.stderr)
        return done.stdout.decode().split('\n')[0], done.stderr.decode().splitlines()

    def picked(self, path, text):
        package = geopackage.GeoPackage(path, COLLATIONS)
        try:
            return [row[0] for row in package.connection.execute('SELECT fid FROM t WHERE ' + text)]
        except sqlite3.Error as e:
            return str(e)
        finally:
            package.connection.close()

    def check(self, entry, data, places, kinds, rows, right, found, instead, *writing):
        cannot = isinstance(found, str)
        words = ['-g', self.package(kinds, rows), *writing] if kinds else []
        text, lines = self.told(data, *words, status=2 if cannot else 0)
        if cannot:
            self.assertTrue(lines[-1].startswith('filter: %s: SQLite cannot run this text: %s; ' % (places[0], found)), lines)
            text, lines = self.told(data)
        self.assertEqual([line.split(': ')[1] for line in lines], ['warning at ' + place for place in places], lines)
        beginnings = [one.happens.split('%')[0] for one in differences.TABLE if one.entry == entry]
        self.assertTrue(all(any(beginning in line for beginning in beginnings) for line in lines), lines)
        nothing, lines = self.told(data, *words, '--strict', status=1)
        self.assertEqual((nothing, lines[-1]), ('', 'filter: refused (--strict): %d warning%s' % (len(lines) - 1, 's' * (len(lines) > 2))))
        if kinds:
            self.assertEqual(self.picked(words[1], text), found)
            self.assertNotEqual(found, right)
        if instead:
            other, rows = instead if isinstance(instead, tuple) else (instead, right)
            text, lines = self.told(other, *words, '--strict')
            self.assertEqual((lines, self.picked(words[1], text)), ([], rows))

    def test_each(self):
        for case in CASES:
            with self.subTest(case[1]):
                self.check(*case)

    def test_open_ends(self):
        """In the Rust's writing a warning, and other rows than CQL2's; in GeoPackage's neither."""
        for data, places, kinds, rows, right, found, instead in OPEN_ENDS:
            with self.subTest(data):
                self.check(OPEN_END, data, places, kinds, rows, right, found, instead, '--writing', 'rust')
                path = self.package(kinds, rows)
                for words in ((), ('--writing', 'geopackage')):
                    text, lines = self.told(data, '--strict', '-g', path, *words)
                    self.assertEqual((lines, self.picked(path, text)), ([], right))
                self.assertEqual(self.told(data, '--strict', '--writing', 'geopackage')[1], [])

    def test_words_about_open_ends(self):
        """The other writing is named where it helps: not where timestamps are written beside a column that holds them as the Rust's text has them."""
        other, last = 'take --writing geopackage, by which it lies above every instant', 'write a last instant in its place, as 9999-12-31'
        dated, timed = (op('t_intersects', A, interval(start, '..')) for start in ('2026-03-01', '2026-03-01T12:00:00Z'))
        beside = op('and', dated, op('t_before', B, NOON))
        for data, kinds, rows, helps in ((dated, None, None, True), (timed, None, None, True), (dated, [TEXT], [[SHORT]], True),
                                         (timed, [TEXT], [[SHORT]], False), (timed, [TEXT], [[LONG]], True), (timed, ['DATETIME'], [], True),
                                         (dated, [DATE], [], True), (beside, [DATE, TEXT], [['2026-03-01', SHORT]], False),
                                         (beside, [DATE, TEXT], [['2026-03-01', LONG]], True)):
            words = ('-g', self.package(kinds, rows), '--writing', 'rust') if kinds else ()
            [line] = [line for line in self.told(data, *words)[1] if 'the open end is written' in line]
            self.assertEqual((other in line, last in line), (helps, True), line)

    def test_both_writings(self):
        """A timestamp beside instants of each form: where SQLite's rows are not those of time there is a warning, and it has the right words."""
        order = dict(zip(('=', '<>', '<', '>', '<=', '>=', 't_after', 't_before'),
                         (str.__eq__, str.__ne__, str.__lt__, str.__gt__, str.__le__, str.__ge__, str.__gt__, str.__lt__)))
        filters = [(name, first, op(name, *[A, NOON][::-1 if first else 1])) for name in order for first in (0, 1)]
        trees = [(records.settings(*SETTINGS), tree_of(data).encode()) for *_, data in filters]
        for (kind, forms, by_writing), word in itertools.product(FORMS, ARGUMENTS):
            values = [*forms, *(x + form[19:] for x in AROUND for form in forms if len(form) > 18)]
            path, (lies, way) = self.package([kind], [[value] for value in values]), by_writing[word]
            where = columns.Table(geopackage.GeoPackage(path, COLLATIONS), 't', False, 4326, word)
            for (name, first, data), text in zip(filters, proved.run('lower', trees, ARGUMENTS[word])):
                lines = [differences.line(one) for one in differences.find(read_filter(json.dumps(data).encode()), where)]
                due = [k for k, value in enumerate(values, 1) if order[name](*[seconds(value), SHORT][::-1 if first else 1])]
                right = RIGHT[lies] and RIGHT[lies][first]
                silent = right is None or name in right
                says = 'not equal to it but %s it; %s' % (lies, way) + ('; %s and %s are right as they are' % right[:2] if right and way != ONE_FORM else '')
                self.assertEqual(silent, not lines, (word, text, values, lines))
                self.assertTrue(self.picked(path, text) == due or not silent, (word, text, values))
                self.assertTrue(silent or len(lines) == 1 and says in lines[0], lines)
            where.package.connection.close()

    def test_words_about_forms(self):
        """What is said of the columns, and of the way out, by each writing."""
        zone, many = [['2026-03-01T00:30:00+01:00[Europe/Berlin]']], [['2026-03-01' + 'x' * 10 ** 6]]
        both, apart = op('t_during', interval(A, B), interval(NOON, NOON)), op('and', op('=', A, NOON), op('=', B, NOON))
        mixed, rust, geopackage = [[LONG, SHORT]], ('--writing', 'rust'), ('--writing', 'geopackage')
        for data, kinds, rows, words, due in (
                (op('>=', A, {'date': '2026-03-01'}), [TEXT], zone, geopackage, 'but above or below it; %s, and write a timestamp' % ONE_FORM),
                (op('>=', A, {'date': '2026-03-01'}), [TEXT], zone, rust, '%s, and write a timestamp, and %s' % (ONE_FORM, TO_GEOPACKAGE)),
                (both, [TEXT] * 2, mixed, geopackage, 'warning at $.args[1].interval[1]: the instant is written %s, and b holds instants as %s: ' % (LONG, SHORT)),
                (both, [TEXT] * 2, mixed, rust, 'warning at $.args[1].interval[0]: the instant is written %s, and a holds instants as %s: ' % (SHORT, LONG)),
                (op('t_meets', interval(A, B), interval(NOON, NOON)), [TEXT] * 2, mixed, geopackage, 'warning at $.args[1].interval[0]: '),
                (both, [TEXT] * 2, mixed, geopackage, '; ' + ONE_FORM),
                (both, [TEXT] * 2, mixed, rust, '; %s, and %s' % (ONE_FORM, TO_GEOPACKAGE)), (apart, [TEXT] * 2, mixed, geopackage, '; ' + ONE_FORM),
                (apart, [TEXT] * 2, mixed, rust, '; %s, and %s' % (ONE_FORM, TO_GEOPACKAGE)),
                (op('a_equals', [A], [NOON]), ['DATETIME'], [[LONG]], rust, 'warning at $.args[1][0]: the instant is written %s, and a holds' % SHORT),
                (op('=', A, NOON), [TEXT], many, geopackage, 'a holds instants as 2026-03-01%s…: ' % ('x' * 29)),
                (op('=', A, NOON), ['DATETIME'], [], rust, 'a is declared for instants as %s: ' % LONG),
                (op('=', A, 5), [DATE], [[LONG]], geopackage, 'a is declared for date values and meets number values')):
            lines = self.told(data, '-g', self.package(kinds, rows), *words)[1]
            self.assertTrue(len(lines) == 1 and due in lines[0] and len(lines[0]) < 500, (due, lines))
        unmet = [op(name, interval(A, NOON), interval(B, NOON)) for name in ('t_during', 't_equals', 't_startedBy')]    # no column meets an instant
        for data, kinds, rows in ((op('=', A, B), [DATE, 'DATETIME'], [['2026-03-01'] * 2]), (op('a_equals', [A], [NOON]), ['DATETIME'], [[LONG]]),
                                  *((one, [TEXT] * 2, [[SHORT, SHORT]]) for one in unmet)):
            self.assertEqual(self.told(data, '-g', self.package(kinds, rows), '--strict')[1], [])

    def test_compared_ends(self):
        """The pairs that are looked at are those of the text."""
        for name in looking.TEMPORAL:
            for x, y in ((interval(A, B), interval(C, D)), (A, interval(C, D)), (interval(A, B), C), (A, C)):
                if name in INSTANTS or 'interval' in x and 'interval' in y:
                    told = re.findall('([abcd]) (?:[<>=]|!=) ([abcd])', sql_of(op(name, x, y)))
                    found = looking.compared(next(looking.walk(op(name, x, y))))
                    self.assertEqual({frozenset(pair) for pair in told}, {frozenset(end['property'] for end, _ in pair) for pair in found}, (name, told))

    def test_a_file_of_utf_16(self):
        """Its texts are ordered by the bytes that it holds, and equal as ever."""
        entry = next(one for one in differences.TABLE if one.entry == UTF_16)
        for encoding, rows, found in (('UTF-16le', [['Ā'], ['a']], [1, 2]), ('UTF-16be', [['\U00010000'], ['a']], [1, 2]), ('UTF-8', [['Ā'], ['a']], [2])):
            path, last = self.package([TEXT], rows, encoding), 'z' if encoding != 'UTF-16be' else '\uffff'
            text, lines = self.told(op('<', A, last), '-g', path)
            self.assertEqual(self.picked(path, text), found)
            begins = 'filter: warning at $: ' + entry.happens.split('%')[0]
            self.assertEqual([line[:len(begins)] for line in lines], [begins] if encoding != 'UTF-8' else [])
            for fine in (op('=', A, rows[0][0]), op('<', casei(A), casei('z')), op('isNull', A)):
                self.assertEqual(self.told(fine, '-g', path, '--strict')[1], [])

    def test_fine(self):
        for data, kinds in FINE:
            with self.subTest(data):
                self.assertEqual(self.told(data, '--strict')[1], [])
                if kinds:
                    self.assertEqual(self.told(data, '--strict', *(['-g', self.package(kinds, [])] if kinds != ['POINT'] else []))[1], [])

    def test_the_filters_of_the_demo(self):
        path = os.path.join(self.folder.name, 'stays.gpkg')
        log.make(path)
        for name in sorted(os.listdir(os.path.join(proved.ROOT, 'filters'))):
            done = run(os.path.join(proved.ROOT, 'filters', name), '--strict', '-g', path, *['--reduce'] * (name == 'unreduced.json'))
            self.assertEqual((done.returncode, done.stderr), (0, b''), name)
        for data, _ in PICKS:
            if data not in (True, False) and data['op'] != 'like':
                self.assertEqual(self.told(data, '--strict', '-g', path)[1], [], data)

    def test_each_stands_in_the_document(self):
        with open(os.path.join(proved.ROOT, 'docs', 'DIFFERENCES.md'), encoding='utf-8') as f:
            document = f.read()
        for one in differences.TABLE:
            self.assertIn('\n| %s |' % one.entry, document)
        run_here = {case[0] for case in CASES} | {case[0] for case in SPATIAL} | {'SWithin, SOverlaps, STouches of a column', UTF_16, OPEN_END}
        self.assertEqual({one.entry for one in differences.TABLE} - run_here, set())

    def test_a_text_that_is_too_deep_for_sqlite(self):
        data = op('t_disjoint', interval(A, B), interval(C, D))
        for _ in range(29):
            data = op('and', True, data)
        _, lines = self.told(data)
        self.assertEqual(len(lines), 1)
        self.assertIn('SQLite cannot run this text: parser stack overflow; say it in smaller filters, or by other operators', lines[0])

    def test_reduced_precision(self):
        for name in ('s_within', 's_overlaps', 's_touches'):
            _, lines = self.told(op('and', *there(A), op(name, A, point(1, 2))))
            self.assertEqual([line[:len('filter: warning at $.args[1]: the text calls ST_ReducePrecision')] for line in lines],
                             ['filter: warning at $.args[1]: the text calls ST_ReducePrecision'])


STRIP = {'bbox': [0, 0, 1.2, 0.25]}
PLACE, LABEL = {'property': 'place'}, {'property': 'label'}
BENCH = ('--srid', '4294967295')    # the demo's table is in the system -1

SPATIAL = [    # entry; filter; options; place; how many rows are picked, of 200 of which 1 to 5 have no place; a way out, and how many it picks
    ('a NULL geometry under SpatiaLite', op('s_disjoint', PLACE, STRIP), BENCH, '$.args[0]', 118,
     op('and', *there(PLACE), op('s_disjoint', PLACE, STRIP)), 113),
    ('a column that is no geometry under SpatiaLite', op('s_intersects', LABEL, STRIP), BENCH, '$.args[0]', 200,
     op('and', *there(PLACE), op('s_intersects', PLACE, STRIP)), 82),
    ("an SRID other than the table's", op('and', *there(PLACE), op('s_intersects', PLACE, STRIP)), (), '$.args[1].args[1]', 82, None, None),
]


class SpatiaLite(unittest.TestCase):
    def setUp(self):
        self.python = spatialite.python()
        if self.python is None:
            self.skipTest(spatialite.MISSING)
        proved.build(['lower'])
        folder = tempfile.TemporaryDirectory()
        self.addCleanup(folder.cleanup)
        self.path = os.path.join(folder.name, 'stays.gpkg')
        log.make(self.path)
        connection = sqlite3.connect(self.path)
        with connection:
            connection.execute('UPDATE stays SET place = NULL WHERE fid <= 5')
        connection.close()

    def told(self, data, *words, status=0):
        done = run('-', '-g', self.path, '--spatialite', *words, data=json.dumps(data).encode(), python=self.python)
        self.assertEqual(done.returncode, status, done.stderr)
        return done.stdout.decode().splitlines()[-1:], done.stderr.decode().splitlines()

    def test_each(self):
        for entry, data, options, place, count, instead, right in SPATIAL:
            with self.subTest(entry):
                last, lines = self.told(data, *options)
                beginning = next(one.happens.split('%')[0] for one in differences.TABLE if one.entry == entry)
                self.assertEqual((last, len(lines)), (['%d of 200 rows' % count], 1))
                self.assertTrue(lines[0].startswith('filter: warning at %s: %s' % (place, beginning)), lines)
                self.assertEqual(self.told(data, '--strict', *options, status=1)[0], [])
                if instead:
                    self.assertEqual(self.told(instead, '--strict', *options), (['%d of 200 rows' % right], []))

    def test_all_eight_operators(self):
        """-1 where the place is NULL: picked, and not under NOT."""
        package = "import sys; sys.path.insert(0, %r); from cql2.geopackage import GeoPackage; package = GeoPackage(%r, 'xyz', True)" % (
            os.path.join(proved.ROOT, 'tools'), self.path)
        text = "ST_%s(place, ST_GeomFromText('POINT (1 2)', 4326))"
        ask = "print([package.ask('SELECT %s, NOT %s FROM stays WHERE fid = 1' % (t, t))[0] for t in sys.argv[1:]])"
        names = 'Intersects Equals Disjoint Touches Within Overlaps Crosses Contains'.split()
        done = subprocess.run([self.python, '-B', '-c', package + '; ' + ask, *[text % name for name in names]], capture_output=True, text=True)
        self.assertEqual((done.stdout.strip(), done.stderr), (str([(-1, 0)] * 8), ''))

    def test_a_system_makes_no_difference(self):
        """The numbers are compared as they stand, whatever the systems are."""
        data = op('and', *there(PLACE), op('s_intersects', PLACE, STRIP))
        for srid in ('0', '3857', '4326', '4294967295'):
            last, lines = self.told(data, '--srid', srid)
            self.assertEqual((last, len(lines)), (['82 of 200 rows'], srid != '4294967295'))

    def test_what_it_lacks(self):
        done = run(json.dumps(op('s_within', PLACE, STRIP)), '-g', self.path, '--spatialite', *BENCH, python=self.python)
        version = subprocess.run([self.python, '-c', spatialite.LOAD + "; print(c.execute('SELECT spatialite_version()').fetchone()[0])"],
                                 capture_output=True, text=True).stdout
        if version < '5.1':
            self.assertEqual(done.returncode, 2)
            self.assertIn(b'ST_ReducePrecision needs SpatiaLite 5.1 or newer', done.stderr)


if __name__ == '__main__':
    unittest.main()
