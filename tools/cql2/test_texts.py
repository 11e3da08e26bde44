"""Tests of the texts: every operator and kind of value, by hand, against tools/model, and against the Rust.

  tests/run                                             all tests, with the oracle where ../shared is at hand
  ORACLE=FILE python3 -m unittest discover -s tools     those of the command and of the programs; FILE is the oracle program"""
import json
import os
import sys
import unittest

sys.path.insert(0, os.path.join(os.path.dirname(os.path.abspath(__file__)), '..'))
from answers.literals import with_milliseconds
from model import checker
from model import lowering as model
from model.records import encode

from . import lowering, proved, records, rust
from .encode import KNOWN, Encoder
from .reading import read_filter
from .writing import GEOPACKAGE, RUST

SETTINGS = (7, 'CQL2_CI', 'CQL2_AI', 'CQL2_CI_AI')
A, B, C, D = ({'property': name} for name in 'abcd')
DAY, LATER = {'date': '2024-02-29'}, {'timestamp': '2024-03-01T23:59:58Z'}


def op(name, *args):
    return {'op': name, 'args': list(args)}


def interval(*ends):
    return {'interval': list(ends)}


def point(*numbers):
    return {'type': 'Point', 'coordinates': list(numbers)}


AB, CD = interval(A, B), interval(C, D)
APOSTROPHES = [    # the Rust writes each once
    (op('=', A, "O'Ring 5 mm"), "a = 'O''Ring 5 mm'"), (op('in', A, ["'", "''", 'x']), "a IN ('''', '''''', 'x')"),
    (op('=', op('casei', A), op('casei', "d'Été")), "(a COLLATE CQL2_CI) = 'd''Été' COLLATE CQL2_CI"), (op('like', A, "%'%"), "a LIKE ('%''%')"),
    (op('f', "';--"), "f(''';--')")]
TEXTS = [    # a filter, and its text written by hand from src/ds/gpkg.rs
    (op('=', A, 1), 'a = 1'),
    (op('<>', A, 'x'), "a <> 'x'"),
    (op('=', A, 'Flügel'), "a = 'Flügel'"),
    (op('<', '🔩 \x80\u2028\ufeff', A), "'🔩 \x80\u2028\ufeff' < a"),
    (op('=', op('accenti', A), op('accenti', 'Flügel')), "(a COLLATE CQL2_AI) = 'Flügel' COLLATE CQL2_AI"),
    (op('<', A, DAY), "a < '2024-02-29'"),
    (op('>', A, LATER), "a > '2024-03-01T23:59:58'"),
    (op('<=', A, True), 'a <= TRUE'),
    (op('>=', A, B), 'a >= b'),
    (op('=', A, None), 'a = (NULL)'),
    (op('and', A, B), 'a AND b'),
    (op('or', op('=', A, 1), B), '(a = 1) OR b'),
    (op('and', A, B, C), '(a AND b) AND c'),
    (op('and', A, B, C, D), '(a AND b) AND (c AND d)'),
    (op('not', A), 'NOT a'),
    (op('not', op('isNull', A)), 'NOT (a IS NULL)'),
    (op('isNull', op('+', A, 1)), '(a + 1) IS NULL'),
    (op('like', A, 'x%'), "a LIKE ('x%')"),
    (op('like', op('casei', A), op('casei', 'x%')), "(a COLLATE CQL2_CI) LIKE ('x%' COLLATE CQL2_CI)"),
    (op('between', A, 1, op('+', B, 2)), 'a BETWEEN 1 AND b + 2'),
    (op('in', A, [1, 2]), 'a IN (1, 2)'),
    (op('in', A, [B, 2]), 'a IN ((b, 2))'),
    (op('in', A, []), 'a IN ()'),
    (op('=', op('casei', A), op('casei', 'X')), "(a COLLATE CQL2_CI) = 'X' COLLATE CQL2_CI"),
    (op('=', op('accenti', A), op('accenti', 'X')), "(a COLLATE CQL2_AI) = 'X' COLLATE CQL2_AI"),
    (op('=', op('casei', op('accenti', A)), op('accenti', op('casei', 'X'))), "(a COLLATE CQL2_CI_AI) = 'X' COLLATE CQL2_CI_AI"),
    (op('=', A, op('+', 1, 2)), 'a = (1 + 2)'),
    (op('=', A, op('-', B, 2)), 'a = (b - 2)'),
    (op('=', A, op('*', -1, B)), 'a = (-1 * b)'),
    (op('=', A, op('/', B, 2)), 'a = (b / 2)'),
    (op('=', A, op('div', B, 2)), 'a = (b div 2)'),
    (op('=', A, op('%', B, 2)), 'a = (b % 2)'),
    (op('=', A, op('^', B, op('+', 1, C))), 'a = (b ^ (1 + c))'),
    (op('s_intersects', A, point(1, 2)), "ST_Intersects(a, ST_GeomFromText('POINT (1 2)', 4326))"),
    (op('s_equals', A, B), 'ST_Equals(a, b)'),
    (op('s_disjoint', A, B), 'ST_Disjoint(a, b)'),
    (op('s_touches', A, point(1, 2)), "ST_Touches(ST_ReducePrecision(a, 1E-7), ST_GeomFromText('POINT (1 2)', 4326))"),
    (op('s_within', point(1, 2), A), "ST_Within(ST_GeomFromText('POINT (1 2)', 4326), ST_ReducePrecision(a, 1E-7))"),
    (op('s_overlaps', A, B), 'ST_Overlaps(a, b)'),
    (op('s_crosses', A, B), 'ST_Crosses(a, b)'),
    (op('s_contains', A, B), 'ST_Contains(a, b)'),
    (op('t_after', A, DAY), "a > '2024-02-29'"),
    (op('t_after', AB, CD), '"b" IS NOT NULL AND "c" NOT NULL AND (a > d)'),
    (op('t_before', AB, interval('2024-02-29', '..')), '"a" IS NOT NULL AND (b < \'2024-02-29\')'),
    (op('t_contains', AB, CD), '(a < c) AND (b > d)'),
    (op('t_disjoint', A, interval(B, C)), '("c" IS NOT NULL AND (a < b)) OR ("b" IS NOT NULL AND (a > c))'),
    (op('t_disjoint', A, B), 'a != b'),
    (op('t_during', AB, interval('..', '2024-03-01T00:00:00Z')), "(a > '-2021-01-01') AND (b < '2024-03-01T00:00:00')"),
    (op('t_equals', A, CD), '(a = c) AND (a = d)'),
    (op('t_finishedBy', AB, CD), '(a < c) AND (b = d)'),
    (op('t_finishes', AB, CD), '(a > c) AND (b = d)'),
    (op('t_intersects', DAY, interval('..', C)), "NOT(('2024-02-29' < '-2021-01-01') OR ('2024-02-29' > c))"),
    (op('t_meets', AB, CD), '"a" IS NOT NULL AND "d" NOT NULL AND (b = c)'),
    (op('t_metBy', AB, CD), '"b" IS NOT NULL AND "c" NOT NULL AND (a = d)'),
    (op('t_overlappedBy', AB, CD), '(a > c) AND (a < d) AND (b > d)'),
    (op('t_overlaps', AB, CD), '(a < c) AND (b > c) AND (b < d)'),
    (op('t_startedBy', AB, CD), '(a = c) AND (b > d)'),
    (op('t_starts', AB, CD), '(a = c) AND (b < d)'),
    (op('a_equals', A, [1, 'x']), "a = (1, 'x')"),
    (op('a_contains', [1, [2, B]], A), '(1, (2, b)) @> a'),
    (op('a_containedBy', A, B), 'a <@ b'),
    (op('a_overlaps', A, [True, DAY]), "a && (TRUE, '2024-02-29')"),
    (op('f', A, [1], DAY, op('=', B, 1)), "f(a, (1), '2024-02-29', b = 1)"),
    (op('f'), 'f()'),
    (op('=', A, op('f', op('f'))), 'a = (f(f()))'),
    (True, 'TRUE'), (False, 'FALSE'), (None, 'NULL'), (A, 'a'),
]

OPEN_ENDS = [    # each ^ is an interval's open end
    (op('t_intersects', A, interval(DAY, '..')), "NOT((a < '2024-02-29') OR (a > ^))"),
    (op('t_intersects', interval(A, '..'), interval(LATER, '..')), "NOT((^ < '2024-03-01T23:59:58') OR (a > ^))"),
    (op('t_after', LATER, interval(A, '..')), '"a" IS NOT NULL AND (\'2024-03-01T23:59:58\' > ^)'),
    (op('t_before', interval(A, '..'), B), '"a" IS NOT NULL AND (^ < b)'),
    (op('t_equals', interval(A, '..'), interval(B, '..')), '(a = b) AND (^ = ^)'),
    (op('t_equals', A, interval('..', '..')), "(a = '-2021-01-01') AND (a = ^)"),
    (op('t_during', interval('..', A), interval(B, '..')), "('-2021-01-01' > b) AND (a < ^)"),
    (op('t_meets', interval(A, '..'), interval('..', B)), '"a" IS NOT NULL AND "b" NOT NULL AND (^ = \'-2021-01-01\')'),
    (op('t_after', A, interval(B, op('f', '..'))), '"b" IS NOT NULL AND (a > f(\'..\'))'), (op('=', A, '..'), "a = '..'"),
    (op('f', op('t_after', A, interval(B, '..')), '..', ['..']), 'f("b" IS NOT NULL AND (a > ^), \'..\', (\'..\'))')]

NUMBERS = [('0', '0'), ('-0', '0'), ('-0.0', '0'), ('1.50', '1.5'), ('1e3', '1000'), ('1.5E-3', '0.0015'), ('-12.25e1', '-122.5'), ('1E+2', '100'),
           ('999999999999999', '999999999999999'), ('-999999999999999', '-999999999999999'), ('0.000000001', '0.000000001'), ('0e99999999999', '0'),
           ('100000000000000e-9', '100000'), ('0.1000000000000000000000', '0.1')]

SQUARE = [[0, 0], [1, 0], [1, 1], [0, 0]]
GEOMETRIES = [
    (point(1.5, -2), 'POINT (1.5 -2)'), (point(1, 2, 3), 'POINT Z (1 2 3)'),
    ({'type': 'LineString', 'coordinates': [[0, 0], [1e2, 0.00000004]]}, 'LINESTRING (0 0, 100 0)'),
    ({'type': 'Polygon', 'coordinates': [SQUARE, SQUARE]}, 'POLYGON ((0 0, 1 0, 1 1, 0 0), (0 0, 1 0, 1 1, 0 0))'),
    ({'type': 'MultiPoint', 'coordinates': [[1, 2], [3, 4]]}, 'MULTIPOINT ((1 2), (3 4))'),
    ({'type': 'MultiLineString', 'coordinates': [[[1, 2], [3, 4]]]}, 'MULTILINESTRING ((1 2, 3 4))'),
    ({'type': 'MultiPolygon', 'coordinates': [[SQUARE]]}, 'MULTIPOLYGON (((0 0, 1 0, 1 1, 0 0)))'),
    ({'type': 'GeometryCollection', 'geometries': [point(1, 2), {'type': 'LineString', 'coordinates': [[1, 2], [3, 4]]}]},
     'GEOMETRYCOLLECTION (POINT (1 2), LINESTRING (1 2, 3 4))'),
    ({'bbox': [1, 2, 3, 4]}, 'POLYGON ((1 2, 3 2, 3 4, 1 4, 1 2))'),
    ({'bbox': [1, 2, -9, 3, 4, 9]}, 'POLYGON ((1 2, 3 2, 3 4, 1 4, 1 2))'),
    ({'bbox': [170, -1, -170, 1]}, 'MULTIPOLYGON (((170 -1, 180 -1, 180 1, 170 1, 170 -1)), ((-180 -1, -170 -1, -170 1, -180 1, -180 -1)))'),
    (point(0.12345675, -0.99999999), 'POINT (0.1234568 -1)'), (point(-0.00000001, 5e-400 or 0), 'POINT (0 0)'),
]

# Examples in the manner of those that OGC 21-065r2 comes with.
STANDARD = [
    (op('<', op('f', {'property': 'windSpeed'}), 4), '(f(windSpeed)) < 4'),
    (op('not', op('isNull', {'property': 'geometry'})), 'NOT (geometry IS NULL)'),
    (op('like', {'property': 'name'}, 'Smith%'), "name LIKE ('Smith%')"),
    (op('between', {'property': 'depth'}, 100.0, 150.0), 'depth BETWEEN 100 AND 150'),
    (op('in', {'property': 'cityName'}, ['Toronto', 'Frankfurt', 'Tokyo', 'New York']), "cityName IN ('Toronto', 'Frankfurt', 'Tokyo', 'New York')"),
    (op('in', {'property': 'category'}, [1, 2, 3, 4]), 'category IN (1, 2, 3, 4)'),
    (op('s_intersects', {'property': 'geometry'}, point(36.319836, 32.288087)),
     "ST_Intersects(geometry, ST_GeomFromText('POINT (36.319836 32.288087)', 4326))"),
    (op('t_intersects', {'property': 'event_time'}, interval('1969-07-16T05:32:00Z', '1969-07-24T16:50:35Z')),
     "NOT((event_time < '1969-07-16T05:32:00') OR (event_time > '1969-07-24T16:50:35'))"),
    (op('t_during', interval({'property': 'touchdown'}, {'property': 'liftOff'}), interval('1969-07-16T13:32:00Z', '1969-07-24T16:50:35Z')),
     "(touchdown > '1969-07-16T13:32:00') AND (liftOff < '1969-07-24T16:50:35')"),
    (op('t_before', {'property': 'updated_at'}, {'timestamp': '2012-08-10T05:30:00.000000Z'}), "updated_at < '2012-08-10T05:30:00'"),
    (op('>', {'property': 'vehicle_height'}, op('-', {'property': 'bridge_clearance'}, 1)), 'vehicle_height > (bridge_clearance - 1)'),
    (op('and', op('=', {'property': 'collection'}, 'landsat8_l1tp'), op('<=', {'property': 'cloud_cover'}, 10),
        op('>=', {'property': 'datetime'}, {'timestamp': '2021-04-08T04:39:23Z'})),
     "((collection = 'landsat8_l1tp') AND (cloud_cover <= 10)) AND (datetime >= '2021-04-08T04:39:23')"),
    (op('a_contains', {'property': 'ids'}, ['layers-ca', 'layers-us']), "ids @> ('layers-ca', 'layers-us')"),
    (op('=', {'property': 'swimming_pool'}, True), 'swimming_pool = TRUE'),
]


def tree_of(data, functions=('f',)):
    return Encoder(7, 4326, functions).filter(read_filter(data if isinstance(data, bytes) else json.dumps(data).encode()))


def sql_of(data, writing=RUST):
    return lowering.lower(records.settings(*SETTINGS), tree_of(data), writing)


class Texts(unittest.TestCase):
    @classmethod
    def setUpClass(cls):
        proved.build(['lower', 'read'])

    def cases(self):
        """Those of which the Rust's text is the same."""
        yield from TEXTS + STANDARD
        for text, shown in NUMBERS:
            yield b'{"op": "=", "args": [{"property": "a"}, %s]}' % text.encode(), 'a = ' + shown
        for geometry, wkt in GEOMETRIES:
            yield op('s_crosses', geometry, A), "ST_Crosses(ST_GeomFromText('%s', 4326), a)" % wkt

    def test_texts_as_written_by_hand(self):
        for data, text in [*self.cases(), *APOSTROPHES]:
            with self.subTest(data):
                self.assertEqual(sql_of(data), text)

    def test_texts_of_the_second_call(self):
        """By hand and by the model: only timestamps are others, and some cases have one. No Str of the cases looks like one."""
        longer = 0
        for data, text in [*self.cases(), *APOSTROPHES]:
            with self.subTest(data):
                due = with_milliseconds(text)
                self.assertEqual(sql_of(data, GEOPACKAGE), due)
                self.assertEqual(model.text(SETTINGS, checker.tree_of(tree_of(data).encode()), GEOPACKAGE), due)
                longer += due != text
        self.assertGreater(longer, 5)

    def test_open_ends(self):
        for data, form in OPEN_ENDS:
            tree = checker.tree_of(tree_of(data).encode())
            for writing, due in ((RUST, form.replace('^', "'-2021-01-01'")), (GEOPACKAGE, with_milliseconds(form).replace('^', "'A'"))):
                with self.subTest((data, writing)):
                    self.assertEqual(sql_of(data, writing), due)
                    self.assertEqual(model.text(SETTINGS, tree, writing), due)

    def test_texts_that_look_like_timestamps(self):
        for text in ('2024-01-01T00:00:00', '2024-01-01T00:00:00Z', '2024-01-01T00:00:00.000Z'):
            for writing in (RUST, GEOPACKAGE):
                self.assertEqual(sql_of(op('=', A, text), writing), "a = '%s'" % text)

    def test_every_operator_is_there(self):
        used = set()

        def look(value):
            if isinstance(value, dict):
                used.add(value.get('op'))
            for x in value.values() if isinstance(value, dict) else value if isinstance(value, list) else ():
                look(x)
        for data, _ in TEXTS:
            look(data)
        self.assertEqual(set(KNOWN) - used, set())

    def test_texts_of_the_model(self):
        for data, text in [*self.cases(), *APOSTROPHES]:
            with self.subTest(data):
                encoded = tree_of(data).encode()
                tree = checker.tree_of(encoded)
                self.assertEqual(encode(tree), encoded)
                self.assertEqual(model.text(SETTINGS, tree), text)

    @unittest.skipUnless(rust.program(), rust.MISSING)
    def test_texts_of_the_rust(self):
        cases = [*self.cases(), *((data, form.replace('^', "'-2021-01-01'")) for data, form in OPEN_ENDS)]
        told = rust.answers([(records.settings(*SETTINGS), tree_of(data).encode()) for data, _ in cases])
        for (data, text), answer in zip(cases, told):
            with self.subTest(data):
                self.assertEqual(answer, ('T', text))

    @unittest.skipUnless(rust.program(), rust.MISSING)
    def test_apostrophes_of_the_rust(self):
        told = rust.answers([(records.settings(*SETTINGS), tree_of(data).encode()) for data, _ in APOSTROPHES])
        for (_, text), (letter, other) in zip(APOSTROPHES, told):
            self.assertEqual(letter, 'T')
            self.assertNotEqual(other, text)

    def test_where_the_tree_is_not_that_of_the_rusts_reader(self):
        """README says how `and` and `or` of more than two are grouped, here and there."""
        with open(os.path.join(proved.ROOT, 'README.md'), encoding='utf-8') as f:
            told = f.read()
        for name in ('and', 'or'):
            self.assertEqual(sql_of(op(name, A, B, C, D)), '(a AND b) AND (c AND d)'.replace('AND', name.upper()))
        self.assertIn('`and` and `or` of more than two conditions are halved here, `(a AND b) AND (c AND d)`', told)
        self.assertIn('read from the left, `((a AND b) AND c) AND d`', told)

    def test_many_conditions_are_not_deep(self):
        text = sql_of(op('or', *[op('=', A, k) for k in range(300)]))
        self.assertEqual(text.count(' OR '), 299)
        self.assertTrue(all('(a = %d)' % k in text for k in range(300)))


if __name__ == '__main__':
    unittest.main()
