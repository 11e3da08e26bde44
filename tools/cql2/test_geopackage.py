"""Tests on real GeoPackages: the rows that filters pick against a Python evaluation by hand, the table, and the error lines about files."""
import datetime
import json
import os
import sqlite3
import struct
import subprocess
import tempfile
import unittest

from demo import log
from model import calls

from . import checking, geopackage, proved, records, spatialite, table, writing
from .errors import Disagreement
from .test_errors import run
from .test_texts import interval, op, sql_of, tree_of

STAY = interval({'property': 'entry'}, {'property': 'exit'})
LABEL, TRAY, ENTRY, EXIT = ({'property': name} for name in ('label', 'tray', 'entry', 'exit'))
COLLATIONS = ('CQL2_CI', 'CQL2_AI', 'CQL2_CI_AI')
APART = 'Flu\u0308gel'    # u and U+0308, which look like ü
WORDS = ['cup', 'CUP', 'Cup', 'cafe', 'café', 'CAFÉ', 'bowl', 'Flügel', APART]

# A filter, and the same by hand on (label, tray, entry, exit); None in a comparison keeps the row out.
PICKS = [
    (op('t_during', STAY, interval('2026-03-09', '2026-03-14')), lambda l, t, a, b: a and b and a > '2026-03-09' and b < '2026-03-14'),
    (op('t_disjoint', STAY, interval('2026-03-03', '2026-03-27')), lambda l, t, a, b: a and b and (b < '2026-03-03' or a > '2026-03-27')),
    (op('t_intersects', STAY, {'date': '2026-03-16'}), lambda l, t, a, b: a and b and a <= '2026-03-16' <= b),
    (op('t_before', EXIT, {'date': '2026-03-05'}), lambda l, t, a, b: b and b < '2026-03-05'),
    (op('t_after', STAY, {'date': '2026-03-20'}), lambda l, t, a, b: a and b and a > '2026-03-20'),
    (op('t_equals', ENTRY, EXIT), lambda l, t, a, b: a and a == b),
    (op('t_meets', STAY, interval('2026-03-16', '2026-03-20')), lambda l, t, a, b: a and b == '2026-03-16'),
    (op('t_starts', STAY, interval('2026-03-16', '2026-03-20')), lambda l, t, a, b: a == '2026-03-16' and b and b < '2026-03-20'),
    (op('isNull', EXIT), lambda l, t, a, b: b is None),
    (op('not', op('isNull', EXIT)), lambda l, t, a, b: b is not None),
    (op('and', op('=', LABEL, 'cup'), op('<>', TRAY, 'left')), lambda l, t, a, b: l == 'cup' and t is not None and t != 'left'),
    (op('not', op('=', TRAY, 'left')), lambda l, t, a, b: t is not None and t != 'left'),
    (op('or', op('<', ENTRY, {'date': '2026-03-03'}), op('>=', EXIT, {'date': '2026-04-01'})),
     lambda l, t, a, b: a and a < '2026-03-03' or b and b >= '2026-04-01'),
    (op('=', LABEL, "O'Ring 5 mm"), lambda l, t, a, b: l == "O'Ring 5 mm"),
    (op('or', op('>=', LABEL, 'Flügel'), op('<', LABEL, "O'")), lambda l, t, a, b: l.encode() >= 'Flügel'.encode() or l < "O'"),
    (op('and', op('<>', LABEL, 'Flügel'), op('<', LABEL, 'Flügeln')), lambda l, t, a, b: l != 'Flügel' and l < 'Flügeln'),
    (op('in', LABEL, ['cup', 'bowl']), lambda l, t, a, b: l in ('cup', 'bowl')),
    (op('like', LABEL, '%u%'), lambda l, t, a, b: 'u' in l),
    (op('between', {'property': 'fid'}, 10, 20), None),
    (True, lambda l, t, a, b: True),
    (False, lambda l, t, a, b: False),
]


class Rows(unittest.TestCase):
    @classmethod
    def setUpClass(cls):
        proved.build(['lower', 'read'])
        cls.folder = tempfile.TemporaryDirectory()
        cls.path = os.path.join(cls.folder.name, 'stays ?#%.gpkg')
        log.make(cls.path)
        cls.package = geopackage.GeoPackage(cls.path, COLLATIONS)

    @classmethod
    def tearDownClass(cls):
        cls.package.connection.close()
        cls.folder.cleanup()

    def other(self, name, *statements):
        """A GeoPackage like the first, changed."""
        path = os.path.join(self.folder.name, name)
        log.make(path)
        connection = sqlite3.connect(path)
        with connection:
            for statement in statements:
                connection.execute(statement)
        connection.close()
        return path

    def line(self, *arguments, status=2):
        done = run(*arguments)
        self.assertEqual(done.returncode, status, done.stderr)
        self.assertEqual(done.stderr.decode().count('\n'), 1, done.stderr)
        return done.stderr.decode().strip()

    def test_rows_as_picked_by_hand(self):
        rows = self.package.select('stays', 'TRUE').fetchall()
        for data, picks in PICKS:
            with self.subTest(data):
                found = [row[0] for row in self.package.select('stays', sql_of(data))]
                self.assertEqual(found, [row[0] for row in rows if (picks(*row[1:5]) if picks else 10 <= row[0] <= 20)])

    def test_the_log_has_what_the_filters_ask_about(self):
        rows = self.package.select('stays', 'TRUE').fetchall()
        self.assertEqual(len(rows), 200)
        self.assertTrue(any(row[4] is None for row in rows) and any(row[3] is None for row in rows) and any(row[2] is None for row in rows))

    def test_reader_and_sqlite_agree(self):
        for data, _ in PICKS[:16]:
            with self.subTest(data):
                self.assertEqual(sum(checking.check(self.package, 'stays', sql_of(data)).values()), 200)

    def test_a_disagreement_is_seen(self):
        """SQLite takes a quoted name that is no column for a text; the reader refuses it."""
        with self.assertRaisesRegex(Disagreement, 'row 1 .*: the proved reader says refused 13, SQLite says true and selects it'):
            checking.check(self.package, 'stays', '"zz" IS NOT NULL')

    def test_collations(self):
        path = self.other('words.gpkg', 'DELETE FROM stays', *["INSERT INTO stays (label) VALUES ('%s')" % word for word in WORDS])
        package = geopackage.GeoPackage(path, COLLATIONS)
        for data, want in ((op('=', op('casei', LABEL), op('casei', 'cUP')), ['cup', 'CUP', 'Cup']),
                           (op('=', op('accenti', LABEL), op('accenti', 'cafe')), ['cafe', 'café']),
                           (op('=', op('casei', op('accenti', LABEL)), op('casei', op('accenti', 'CAFE'))), ['cafe', 'café', 'CAFÉ']),
                           (op('=', op('accenti', LABEL), op('accenti', 'café')), ['cafe', 'café']),
                           (op('=', op('casei', LABEL), op('casei', 'CAFÉ')), ['café', 'CAFÉ']),
                           (op('=', op('casei', op('accenti', LABEL)), op('accenti', op('casei', 'Café'))), ['cafe', 'café', 'CAFÉ']),
                           (op('=', LABEL, 'cafe'), ['cafe']), (op('=', LABEL, 'café'), ['café']),
                           (op('=', LABEL, 'Flügel'), ['Flügel']), (op('=', LABEL, APART), [APART]),
                           (op('=', op('accenti', LABEL), op('accenti', 'Flügel')), ['Flügel', APART])):
            self.assertEqual([row[1] for row in package.select('stays', sql_of(data))], want)
        package.connection.close()

    def test_table(self):
        done = run(json.dumps(op('=', {'property': 'fid'}, 1)), '--geopackage', self.path, '--table', 'stays')
        self.assertEqual(done.stdout.decode(), '''fid = 1
writing geopackage: timestamps end in .000Z, as GeoPackage defines DATETIME, and an open end lies above every instant (--writing rust: neither)

fid  label  tray    entry       exit        place              seen
---  -----  ------  ----------  ----------  -----------------  ------------------------
  1  bolt   middle  2026-03-04  2026-03-05  POINT (1.07 0.37)  %s
1 of 200 rows
''' % self.package.select('stays', 'fid = 1').fetchone()[6])

    def test_writings(self):
        """By the first call the row of 14:00 itself is picked too; without a GeoPackage that call is taken."""
        for words, after, count in ((['-g', self.path], '.000Z', 2), (['-g', self.path, '--writing', 'geopackage'], '.000Z', 2),
                                    (['-g', self.path, '--writing', 'rust'], '', 3), ([], '', None), (['--writing', 'geopackage'], '.000Z', None)):
            done = run(os.path.join(proved.ROOT, 'filters', 'late_shift.json'), *words)
            lines = done.stdout.decode().splitlines()
            self.assertEqual(lines[0], "(seen > '2026-03-16T14:00:00%s') AND (seen < '2026-03-16T22:00:00%s')" % (after, after))
            if count is None:
                self.assertEqual((len(lines), done.stderr), (1, b''))
                continue
            self.assertEqual(lines[1], writing.LINES[writing.GEOPACKAGE if after else writing.RUST])
            self.assertEqual((lines[2], lines[-1]), ('', '%d of 200 rows' % count))
            self.assertEqual(done.stderr.decode().count('filter: warning at $.args[0].args[1]: '), 0 if after else 1)

    def test_length_alone(self):
        """In bytes, of the writing that is taken, as the model's preview has it; without rows, and refused as ever."""
        for data in (True, op('=', LABEL, "O'Ring für 5 mm"), op('t_after', {'property': 'seen'}, {'timestamp': '2026-03-16T14:00:00Z'})):
            for words, call in (([], writing.RUST), (['--writing', 'geopackage'], writing.GEOPACKAGE), (['-g', self.path], writing.GEOPACKAGE)):
                length, _ = calls.preview(records.settings(7, *COLLATIONS), tree_of(data).encode(), 65535, call)
                done = run(json.dumps(data), '--length', *words)
                self.assertEqual((done.stdout, done.stderr, done.returncode), (b'%d\n' % length, b'', 0))
        for words in (['--length'], []):
            self.assertTrue(self.line(json.dumps(op('isNull', {'property': 'order'})), *words, status=1).startswith('filter: refused (6) at $.args[0].property'))
        done = run(json.dumps(op('=', {'property': 'fid'}, op('^', 2, 3))), '--length', '-g', self.path)
        self.assertEqual((done.stdout, done.returncode), (b'13\n', 0))    # fid = (2 ^ 3), which is not run
        self.assertTrue(done.stderr.startswith(b'filter: warning at $.args[1]: '))

    def test_values_to_the_millisecond(self):
        """The log has 24-byte values, and the second call's texts pick them by their instants."""
        rows = self.package.select('stays', 'seen IS NOT NULL').fetchall()
        self.assertTrue(all(len(row[6]) == 24 for row in rows) and {'000', '001', '999'} <= {row[6][20:23] for row in rows})
        instant = lambda row: datetime.datetime.strptime(row[6], '%Y-%m-%dT%H:%M:%S.%fZ')
        noon = {'timestamp': '2026-03-18T14:00:00Z'}
        at = datetime.datetime(2026, 3, 18, 14)
        for name, right in (('=', at.__eq__), ('<>', at.__ne__), ('<', at.__gt__), ('>', at.__lt__), ('<=', at.__ge__), ('>=', at.__le__),
                            ('t_after', at.__lt__), ('t_before', at.__gt__), ('t_equals', at.__eq__), ('t_disjoint', at.__ne__), ('t_intersects', at.__eq__)):
            sql = sql_of(op(name, {'property': 'seen'}, noon), writing.GEOPACKAGE)
            self.assertEqual([row[0] for row in self.package.select('stays', sql)], [row[0] for row in rows if right(instant(row))], sql)
            self.assertEqual(sum(checking.check(self.package, 'stays', sql).values()), 200)

    def test_stays_that_have_not_ended(self):
        """By the second call they are found, those that began when Python's datetime says; by the first there is none, and a warning at each open end."""
        instant = lambda text: datetime.datetime.strptime(text, '%Y-%m-%dT%H:%M:%S.%fZ')
        first, last = datetime.datetime(2026, 3, 9, 22), datetime.datetime(2026, 3, 16, 22)
        rows = self.package.select('stays', 'exit IS NULL AND seen IS NOT NULL').fetchall()
        right = [row[0] for row in rows if first < instant(row[6]) <= last]
        self.assertTrue(0 < len(right) < len(rows))
        path = os.path.join(proved.ROOT, 'filters', 'not_ended.json')
        for words, count, warnings in (([], len(right), 0), (['--writing', 'geopackage'], len(right), 0), (['--writing', 'rust'], 0, 2)):
            done = run(path, '-g', self.path, *words)
            self.assertEqual(done.stdout.decode().splitlines()[-1], '%d of 200 rows' % count)
            self.assertEqual(done.stderr.decode().count('the open end is written as the text -2021-01-01'), warnings, done.stderr)
        with open(path, encoding='utf-8') as f:
            sql = sql_of(json.load(f), writing.GEOPACKAGE)
        self.assertEqual([row[0] for row in self.package.select('stays', sql)], right)

    def test_an_unreduced_filter(self):
        """As it stands it picks none, with a warning; reduced it picks what came after the day."""
        path = os.path.join(proved.ROOT, 'filters', 'unreduced.json')
        told = [row for row in self.package.select('stays', 'TRUE') if row[3] is not None and row[3] > '2026-03-24']
        for words, count, warnings in (([], 0, 1), (['--reduce'], len(told), 0), (['--reduce', '--controller', '--writing', 'rust'], len(told), 0)):
            done = run(path, '-g', self.path, *words)
            self.assertEqual(done.stdout.decode().splitlines()[-1], '%d of 200 rows' % count)
            self.assertEqual(done.stderr.count(b'dates and timestamps are compared as texts'), warnings, done.stderr)

    def test_the_demo_says_what_the_first_call_does_wrong(self):
        done = subprocess.run([os.path.join(proved.ROOT, 'demo')], capture_output=True, text=True)
        self.assertEqual((done.returncode, done.stderr), (0, ''))
        self.assertIn("\n   Row 173 is wrong: it was seen at 2026-03-16T14:00:00.000Z, which is 14:00 and not after it. As a text that lies above "
                      "'2026-03-16T14:00:00', which it begins with.\n", done.stdout)
        self.assertIn("\n   None is found: there the open end is '-2021-01-01', which lies below every instant", done.stdout)
        self.assertIn("\n   SQL  ((entry > '2026-03-24') AND TRUE) AND TRUE\n", done.stdout)
        self.assertIn('\nDone: 1800 answers of the proved reader held against SQLite, all the same.\n', done.stdout)

    def test_rows_that_are_not_shown_are_counted(self):
        lines = run('true', '--geopackage', self.path, '--rows', '3').stdout.decode().splitlines()
        self.assertEqual(lines[-2:], ['… 197 more (--rows 0 shows all)', '200 of 200 rows'])
        self.assertEqual(len(run('true', '--geopackage', self.path, '--rows', '0').stdout.decode().splitlines()), 206)

    def test_cells(self):
        self.assertEqual([table.cell(x) for x in (None, 7, 1.5, b'abc', log.point(0.5, 2), 'x' * 40, 'a\nb\x1b', '漢' * 20)],
                         ['NULL', '7', '1.5', '3 bytes', 'POINT (0.5 2)', 'x' * 31 + '…', 'a\\nb\\x1b', '漢' * 15 + '…'])
        self.assertEqual(list(table.lines(['a', 'b'], [('漢', 1), ('x', 22)])), ['a    b', '--  --', '漢   1', 'x   22'])

    def test_files(self):
        self.assertEqual(self.line('true', '-g', 'no.gpkg'), 'filter: cannot read no.gpkg: No such file or directory')
        self.assertEqual(self.line('true', '-g', '/'), 'filter: cannot read /: Is a directory')
        self.assertEqual(self.line('true', '-g', __file__), 'filter: %s is no GeoPackage: it is no SQLite file' % __file__)
        path = self.other('id.gpkg', 'PRAGMA application_id = 1')
        self.assertEqual(self.line('true', '-g', path), 'filter: %s is no GeoPackage: its application_id is another' % path)
        path = self.other('contents.gpkg', 'DROP TABLE gpkg_contents')
        self.assertEqual(self.line('true', '-g', path), 'filter: %s is no GeoPackage: it has no table gpkg_contents' % path)
        path = self.other('cut.gpkg')
        with open(path, 'r+b') as f:
            f.truncate(5000)
        self.assertRegex(self.line('true', '-g', path), 'filter: cannot (open|read) %s: database disk image is malformed' % path)

    def test_tables(self):
        self.assertEqual(self.line('true', '-g', self.path, '-t', 'nights'),
                         'filter: %s has no table "nights"; it has stays' % self.path)
        two = self.other('two.gpkg', "INSERT INTO gpkg_contents (table_name, data_type) VALUES ('nights', 'attributes')")
        self.assertEqual(self.line('true', '-g', two), 'filter: %s has the tables nights, stays; name one with --table' % two)
        many = self.other('many.gpkg', *["INSERT INTO gpkg_contents (table_name, data_type) VALUES ('t%03d', 'attributes')" % k for k in range(300)])
        self.assertEqual(self.line('true', '-g', many), 'filter: %s has the tables stays, %s, … (289 more); name one with --table'
                         % (many, ', '.join('t%03d' % k for k in range(11))))
        self.assertTrue(self.line('true', '-g', many, '-t', 'x').endswith(', … (289 more)'))
        self.assertEqual(self.line('true', '-g', two, '-t', 'nights'), 'filter: %s lists a table "nights" that is not there' % two)
        none = self.other('none.gpkg', 'DELETE FROM gpkg_contents')
        self.assertEqual(self.line('true', '-g', none), 'filter: %s has no table of features or attributes; name one with --table' % none)

    def test_odd_files(self):
        for k, name in enumerate(("x'74'", 'NULL')):
            path = os.path.join(self.folder.name, 'name%d.gpkg' % k)
            connection = sqlite3.connect(path)
            connection.executescript('PRAGMA application_id = 0x47504B47; CREATE TABLE gpkg_contents (table_name, data_type); '
                                     "INSERT INTO gpkg_contents VALUES (%s, 'features')" % name)
            connection.close()
            self.assertIn('has no table of features or attributes', self.line('true', '-g', path))
        path = self.other(b'\xff.gpkg'.decode('utf-8', 'surrogateescape'), 'ALTER TABLE stays ADD COLUMN current_date TEXT',
                          'ALTER TABLE stays ADD COLUMN twice TEXT GENERATED ALWAYS AS (label || label)')
        self.assertEqual(run(json.dumps(op('=', {'property': 'twice'}, 'cupcup')), '-g', path).returncode, 0)
        self.assertEqual('filter: refused (6) at $.args[0].property: the property current_date is a keyword of SQLite: give the column another name, or show it '
                         'under one by a view', self.line(json.dumps(op('isNull', {'property': 'current_date'})), '-g', path, status=1))
        self.assertEqual(self.line('true', '-g', ''), 'filter: cannot read : No such file or directory')
        self.assertEqual(self.line('true', '-t', 'stays'), 'filter: --table and --spatialite go with --geopackage (see ./filter --help)')

    def test_texts_that_sqlite_cannot_run(self):
        cannot, fid = 'filter: %sSQLite cannot run this text: ', {'property': 'fid'}
        self.assertEqual(self.line(json.dumps(op('isNull', {'property': 'zz'})), '-g', self.path),
                         'filter: $.args[0].property: the table "stays" has no column zz; it has fid, label, tray, entry, exit, place, seen')
        self.assertEqual(self.line(json.dumps(op('s_intersects', LABEL, {'bbox': [1, 2, 3, 4]})), '-g', self.path),
                         cannot % '' + 'spatial functions need SpatiaLite (--spatialite)')
        self.assertEqual(self.line(json.dumps(op('=', fid, op('^', 2, 3))), '-g', self.path), cannot % '$.args[1]: ' + 'unrecognized token: "^"; '
                         'say it by other operators, or by a function of your database with --function')
        self.assertEqual(self.line(json.dumps(op('in', LABEL, [TRAY, 'x'])), '-g', self.path),
                         cannot % '$.args[1][0]: ' + 'row value misused; join comparisons by `or`')
        self.assertEqual(self.line(json.dumps(op('f', LABEL)), '--function', 'f', '-g', self.path), cannot % '' + 'no such function: f')

    def test_broken_pipe(self):
        command = "%s true -g '%s' --rows 0 | head -n 1" % (os.path.join(proved.ROOT, 'filter'), self.path)
        done = subprocess.run(command, shell=True, capture_output=True)
        self.assertEqual((done.stdout, done.stderr), (b'TRUE\n', b''))

    def test_spatialite(self):
        python = spatialite.python()
        if python is None:
            self.skipTest(spatialite.MISSING)
        box = op('s_intersects', {'property': 'place'}, {'bbox': [0, 0, 0.5, 0.25]})
        done = run(json.dumps(box), '-g', self.path, '--spatialite', '--rows', '0', '--srid', '4294967295', python=python)
        places = [struct.unpack('<dd', row[5][13:]) for row in self.package.select('stays', 'TRUE')]
        inside = sum(x <= 0.5 and y <= 0.25 for x, y in places)
        self.assertEqual((done.stdout.decode().splitlines()[-1:], done.stderr), (['%d of 200 rows' % inside], b''))

    def test_a_python_without_extensions(self):
        if hasattr(self.package.connection, 'enable_load_extension'):
            self.skipTest('this Python can load extensions')
        self.assertIn('this Python cannot load SQLite extensions', self.line('true', '-g', self.path, '--spatialite'))


if __name__ == '__main__':
    unittest.main()
