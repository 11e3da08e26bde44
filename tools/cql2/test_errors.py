"""Tests of the error lines: what each says, with which exit status, in one line and never with a traceback."""
import json
import os
import subprocess
import sys
import tempfile
import unittest

from . import proved
from .test_texts import A, AB, CD, DAY, interval, op, point

FILTER = os.path.join(proved.ROOT, 'filter')


def run(*arguments, data=b'', python=sys.executable, **more):
    return subprocess.run([python, FILTER, *arguments], input=data, capture_output=True, timeout=600, **more)


def nested(levels):
    text = 'true'
    for _ in range(levels):
        text = '{"op": "not", "args": [%s]}' % text
    return text


def doubled(times):
    """A text of 4,000 characters that is written twice at each level."""
    value = op('lower', 'x' * 4000)
    for _ in range(times):
        value = op('lower', op('t_equals', value, AB))
    return value


IS_TEXT = 'the filter is CQL2-Text, and CQL2-JSON is due, as {"op": "=", "args": [{"property": "label"}, "cup"]}'
BAD = [    # a filter that is not as CQL2-JSON has it, and what the line says
    ('', 'the filter is empty'),
    ('{', 'the filter is not JSON: Expecting property name enclosed in double quotes at line 1, column 2'),
    ('{"op": "=", "args": [1, 2]} 3', 'the filter is not JSON: Extra data at line 1, column 29'),
    ('{"op": "=", "args": [NaN, 2]}', 'NaN is no JSON number'),
    ('{"op": "=", "args": [-Infinity, 2]}', '-Infinity is no JSON number'),
    ('{"op": "=", "op": "=", "args": [1, 2]}', 'the member "op" stands twice in one object'),
    (op('foo', 1), '$.op: unknown operator "foo"; if it is a function of your database, add --function foo'),
    (op('t_metby', AB, CD), '$.op: unknown operator "t_metby"; did you mean t_metBy?'),
    (op('AND', True, True), '$.op: unknown operator "AND"; did you mean and?'),
    (op('!=', A, 1), '$.op: unknown operator "!="; did you mean <>?'),
    (op('\x1b[2J', A), '$.op: unknown operator "\\x1b[2J"; if it is a function of your database, add --function \\x1b[2J'),
    (op('not', op('and', True)), '$.args[0].args: and takes 2 arguments or more, not 1'),
    (op('not'), '$.args: not takes 1 argument, not 0'),
    (op('=', 1, 2, 3), '$.args: = takes 2 arguments, not 3'),
    (op('between', 1, 2), '$.args: between takes 3 arguments, not 2'),
    (op('-', 1), '$.args: - takes 2 arguments, not 1'),
    (op('-', 1, 2), '$: a filter takes a condition here, not a number'),
    ('"x"', '$: a filter takes a condition here, not a text'),
    ([1], '$: a filter takes a condition here, not a list'),
    (DAY, '$: a filter takes a condition here, not an instant'),
    (AB, '$: a filter takes a condition here, not an interval'),
    (point(1, 2), '$: a filter takes a condition here, not a geometry'),
    (op('not', 1), '$.args[0]: not takes a condition here, not a number'),
    (op('=', A, [1]), '$.args[1]: = takes a text, number, boolean, instant, property or function here, not a list'),
    (op('=', A, op('=', A, 1)), '$.args[1]: = takes a text, number, boolean, instant, property or function here, not a condition'),
    (op('like', A, 1), '$.args[1]: like takes a text (the pattern), also inside casei or accenti here, not a number'),
    (op('like', A, A), '$.args[1]: like takes a text (the pattern), also inside casei or accenti here, not a property or function'),
    (op('between', A, 1, 'x'), '$.args[2]: between takes a number, arithmetic, property or function here, not a text'),
    (op('in', A, A), '$.args[1]: in takes a list here, not a property or function'),
    (op('in', A, [1, [2]]), '$.args[1][1]: this list takes a text, number, boolean, instant, property or function here, not a list'),
    (op('=', A, op('casei', 1)), '$.args[1].args[0]: casei takes a text, property or function here, not a number'),
    (op('=', A, op('+', 1, 'x')), '$.args[1].args[1]: + takes a number, arithmetic, property or function here, not a text'),
    (op('s_within', A, 'POINT (1 2)'), '$.args[1]: s_within takes a geometry, bbox, property or function here, not a text'),
    (op('t_after', A, '2024-01-01'), '$.args[1]: t_after takes a date, timestamp, interval, property or function here, not a text'),
    (op('a_equals', A, 'x'), '$.args[1]: a_equals takes a list, property or function here, not a text'),
    ({'op': 1, 'args': []}, '$.op: an operator is named by a text'),
    ({'op': 'not'}, '$: "args", a list, is missing for not'),
    ({'op': 'not', 'args': True}, '$: "args", a list, is missing for not'),
    ({'op': 'not', 'args': [True], 'x': 1}, '$: unexpected member "x"'),
    ({}, '$: an object with "op", "property", "date", "timestamp", "interval", "bbox" or "type" is due'),
    ({'property': 1}, '$.property: a property is named by a text'),
    ({'property': 'a', 'x': 1}, '$: unexpected member "x"'),
    (op('t_after', A, {'date': 1}), '$.args[1].date: a date is written as a text'),
    (op('t_after', A, {'date': '2024-1-1'}), '$.args[1].date: "2024-1-1" is not written as a date, YYYY-MM-DD'),
    (op('t_after', A, {'date': '2024-01-01\n'}), '$.args[1].date: "2024-01-01 " is not written as a date, YYYY-MM-DD'),
    (op('t_after', A, {'timestamp': '2024-01-01T00:00:00'}),
     '$.args[1].timestamp: "2024-01-01T00:00:00" is not written as a timestamp, YYYY-MM-DDTHH:MM:SSZ'),
    (op('t_after', A, {'timestamp': '2024-01-01T00:00:00+02:00'}),
     '$.args[1].timestamp: "2024-01-01T00:00:00+02:00" has an offset from UTC, +02:00: a timestamp is written in UTC, YYYY-MM-DDTHH:MM:SSZ'),
    (op('t_after', A, interval('2024-01-01T00:00:00.5-0530', '..')),
     '$.args[1].interval[0]: "2024-01-01T00:00:00.5-0530" has an offset from UTC, -0530: a timestamp is written in UTC, YYYY-MM-DDTHH:MM:SSZ'),
    ("label = 'cup'", IS_TEXT), ('t_after(entry, DATE(\'2026-03-01\'))', IS_TEXT), ('"a" IS NULL', IS_TEXT), ('NOT (a > 1)', IS_TEXT),
    ('S_INTERSECTS(place, POINT(1 2))', IS_TEXT), ('tray IN (\'left\', \'right\')', IS_TEXT),
    ({'filter': op('=', A, 1), 'filter-lang': 'cql2-json'}, '$: this is a request that holds a filter: give the value of its member "filter" alone'),
    (op('t_after', A, interval('2024-01-01')), '$.args[1].interval: an interval is a list of two ends'),
    (op('t_after', A, interval('soon', '..')), '$.args[1].interval[0]: "soon" is not written as a date, YYYY-MM-DD'),
    (op('t_after', A, interval('..', 1)), '$.args[1].interval[1]: an interval takes a date, timestamp, "..", property or function here, not a number'),
    (op('s_within', A, {'type': 'Circle'}),
     '$.args[1]: unknown geometry type "Circle"; known: Point, LineString, MultiPoint, Polygon, MultiLineString, MultiPolygon, GeometryCollection'),
    (op('s_within', A, {'type': 'Point', 'coordinates': [1, 2], 'crs': 'x'}), '$.args[1]: unexpected member "crs"'),
    (op('s_within', A, point(1)), '$.args[1].coordinates: a position is a list of two or three numbers'),
    (op('s_within', A, point(1, '2')), '$.args[1].coordinates: a position is a list of two or three numbers'),
    ('{"op": "s_within", "args": [{"property": "a"}, {"type": "Point", "coordinates": [1e400, 2]}]}',
     '$.args[1].coordinates: the coordinate 1e400 has more than 15 digits before the point'),
    (op('s_within', A, {'type': 'LineString', 'coordinates': 1}), '$.args[1].coordinates: a list of positions is due'),
    (op('s_within', A, {'type': 'LineString', 'coordinates': [[1, 2]]}), '$.args[1].coordinates: a line has at least two positions'),
    (op('s_within', A, {'type': 'LineString', 'coordinates': [[1, 2], [1, 2, 3]]}),
     '$.args[1].coordinates: positions of two and of three numbers are mixed'),
    (op('s_within', A, {'type': 'Polygon', 'coordinates': [[[1, 2], [3, 4], [5, 6], [7, 8]]]}),
     '$.args[1].coordinates: a ring has at least four positions and ends where it starts'),
    (op('s_within', A, {'type': 'GeometryCollection', 'geometries': []}), '$.args[1]: a GeometryCollection has a list of geometries'),
    (op('s_within', A, {'type': 'GeometryCollection', 'geometries': [1]}),
     '$.args[1].geometries[0]: a GeometryCollection holds simple geometries'),
    (op('s_within', A, {'type': 'GeometryCollection', 'geometries': [point(1, 2), point(1, 2, 3)]}),
     '$.args[1].geometries[1].coordinates: positions of two and of three numbers are mixed'),
    (op('s_within', A, {'bbox': [1, 2, 3]}), '$.args[1].bbox: a bbox has four or six numbers'),
    (op('s_within', A, {'bbox': [1, 2, 3, 0]}), '$.args[1].bbox: a bbox has its southern edge before its northern'),
    (op('s_within', A, {'bbox': [1000, 0, 500, 1]}),
     '$.args[1].bbox: a bbox has its western edge first, unless it crosses the meridian of 180 degrees'),
]

NAME_RULE = 'a name has 1 to 64 letters, digits and underscores, no digit first, and is no keyword of SQLite, nor DIV, FALSE or TRUE'
OTHER_NAME = 'the property %s is a keyword of SQLite: give the column another name, or show it under one by a view'
CONTROL = 'the text has a control character, U+%s, as its character %d: none below U+0020 is taken, nor U+007F'
REFUSED = [    # a filter that document 01 refuses: the number, the place, the beginning of the words
    (op('=', A, 'x' * 33000), 2, None, 'the filter is longer than 32,768 bytes as records (it has'),
    (nested(32), 4, '$' + '.args[0]' * 32, 'this lies deeper than 32 levels'),
    (op('=', {'property': 'a b'}, 1), 6, '$.args[0].property', NAME_RULE),
    (op('=', {'property': 'eo:cloud_cover'}, 1), 6, '$.args[0].property', NAME_RULE),
    (op('=', {'property': 'and'}, 1), 6, '$.args[0].property', OTHER_NAME % 'and'),
    (op('=', {'property': 'Order'}, 1), 6, '$.args[0].property', OTHER_NAME % 'Order'),
    (op('and', op('=', A, 1), op('isNull', {'property': 'GROUP'})), 6, '$.args[1].args[0].property', OTHER_NAME % 'GROUP'),
    (op('=', {'property': 'true'}, 1), 6, '$.args[0].property', (OTHER_NAME % 'true').replace('SQLite', 'SQL')),
    (op('=', {'property': ''}, 1), 6, '$.args[0].property', NAME_RULE),
    (op('=', A, "it's\n"), 6, '$.args[1]', CONTROL % ('000A', 5)),
    (op('in', A, ['x', 'Straße\x7f']), 6, '$.args[1][1]', CONTROL % ('007F', 7)),
    (op('=', A, op('casei', 'é\0')), 6, '$.args[1].args[0]', CONTROL % ('0000', 2)),
    (op('=', A, 'x' * 4097), 6, '$.args[1]', 'the text has 4097 bytes as UTF-8, and 4,096 is the most'),
    (op('=', A, 'é' * 2049), 6, '$.args[1]', 'the text has 4098 bytes as UTF-8, and 4,096 is the most'),
    ('{"op": "=", "args": [{"property": "a"}, "\\ud800"]}', 6, '$.args[1]', 'the text has half of a surrogate pair, \\ud800, as its character 1: '),
    ('{"op": "=", "args": [{"property": "a"}, "\\ud83d\\udd29\\udd29"]}', 6, '$.args[1]',
     'the text has half of a surrogate pair, \\udd29, as its character 2: '),
    ('{"op": "=", "args": [{"property": "a"}, 1000000000000000]}', 6, '$.args[1]', 'a number has at most 15 digits'),
    ('{"op": "=", "args": [{"property": "a"}, 1e400]}', 6, '$.args[1]', 'a number has at most 15 digits'),
    ('{"op": "=", "args": [{"property": "a"}, -1e99999999999999999999]}', 6, '$.args[1]', 'a number has at most 15 digits'),
    ('{"op": "=", "args": [{"property": "a"}, 1e-10]}', 6, '$.args[1]', 'a number has at most 15 digits'),
    ('{"op": "=", "args": [{"property": "a"}, 1e-300]}', 6, '$.args[1]', 'a number has at most 15 digits'),
    ('{"op": "=", "args": [{"property": "a"}, %s]}' % ('9' * 5000), 6, '$.args[1]', 'a number has at most 15 digits'),
    (op('t_after', A, {'date': '2023-02-29'}), 6, '$.args[1].date', 'there is no such day'),
    (op('t_after', A, interval('0000-01-01', '..')), 6, '$.args[1].interval[0]', 'there is no such day'),
    (op('t_after', A, {'timestamp': '2024-01-01T24:00:00Z'}), 6, '$.args[1].timestamp', 'there is no such time'),
    (op('t_after', A, {'timestamp': '2024-01-01T00:00:00.5Z'}), 6, '$.args[1].timestamp',
     'the timestamp has a fraction of a second, .5, and only whole seconds are taken'),
    (op('t_after', A, interval('2024-01-01T00:00:00.001Z', '..')), 6, '$.args[1].interval[0]',
     'the timestamp has a fraction of a second, .001, and only whole seconds are taken'),
    (op('s_within', A, {'type': 'LineString', 'coordinates': [[1.1234567, 2.1234567]] * 300}), 6, '$.args[1]',
     'the geometry written as text is longer than 4,096'),
    # the first in reading order is named, as document 01 has it
    (op('and', op('=', A, '\t'), op('=', {'property': '1'}, 1)), 6, '$.args[0].args[1]', CONTROL % ('0009', 1)),
    (op('=', {'property': "O'Ring"}, 1), 6, '$.args[0].property', NAME_RULE),
    (op('=', {'property': 'Flügel'}, 1), 6, '$.args[0].property', NAME_RULE),
    ('{"op": "and", "args": [{"op": "=", "args": [{"property": "1"}, 1]}, {"op": "=", "args": [{"property": "a"}, 1e400]}]}', 6,
     '$.args[0].args[0].property', NAME_RULE),
    (op('t_during', A, interval('..', '..')), 7, '$', 't_during takes an interval on both sides'),
    (op('not', op('t_finishedBy', AB, DAY)), 7, '$.args[0]', 't_finishedBy takes an interval on both sides'),
    (op('or', op('t_after', AB, CD), op('isNull', AB)), 7, '$.args[1].args[0].interval', 'an interval can only be an operand of a t_ operator'),
    (op('a_equals', [1, AB], A), 7, '$.args[0][1].interval', 'an interval can only be an operand of a t_ operator'),
    (doubled(5), 8, None, 'the SQL text would be longer than 65,535 bytes'),
]


TWICE = op('t_equals', op('f', op('t_equals', op('f', 'x' * 1000), AB)), AB)    # a text of 1,000 characters, written four times
OWN_LIMITS = [    # filters that are accepted, and what is said of them by --controller; nothing where they are accepted too
    (op('=', A, 'x' * 1978), None), (op('=', A, 'x' * 1979), "refused (2): the filter is longer than 2,000 bytes as records, the controller's limit (it has 2001)"),
    (nested(7), None), (nested(8), "refused (4) at $%s: this lies deeper than 8 levels, the controller's limit" % ('.args[0]' * 8)),
    (op('in', A, ["'" * 980] * 2), None), (TWICE, "refused (8): the SQL text would be longer than 4,000 bytes, the controller's limit")]


class Errors(unittest.TestCase):
    def line(self, done, status):
        self.assertEqual(done.returncode, status, done.stderr)
        self.assertEqual(done.stdout, b'')
        lines = done.stderr.decode().splitlines()
        self.assertEqual(len(lines), 1, lines)
        self.assertTrue(lines[0].startswith('filter: '))
        return lines[0][len('filter: '):]

    def test_bad_filters(self):
        for data, words in BAD:
            data = data if isinstance(data, str) else json.dumps(data)
            with self.subTest(data[:80]):
                self.assertEqual(self.line(run('-', data=data.encode()), 2), words)

    def test_refusals(self):
        for data, number, place, words in REFUSED:
            data = data if isinstance(data, str) else json.dumps(data)
            with self.subTest(data[:80]):
                where = '' if place is None else ' at ' + place
                line = self.line(run('-', '--function', 'lower', data=data.encode()), 1)
                self.assertEqual(line[:len('refused (%d)%s: %s' % (number, where, words))], 'refused (%d)%s: %s' % (number, where, words))

    def test_refusals_of_the_second_call(self):
        """By the same numbers, at the same places, in the same words."""
        for data, *_ in REFUSED:
            data = (data if isinstance(data, str) else json.dumps(data)).encode()
            first, second = (self.line(run('-', '--function', 'lower', '--writing', word, data=data), 1) for word in ('rust', 'geopackage'))
            self.assertEqual(first, second)

    def test_a_text_that_is_too_long_by_the_second_call_alone(self):
        stamp = {'timestamp': '2026-03-01T12:00:00Z'}
        data = json.dumps(op('in', A, [stamp] * 2400)).encode()
        self.assertEqual(len(run('-', data=data).stdout), 2400 * 23 + 6)
        self.assertEqual(self.line(run('-', '--writing', 'geopackage', data=data), 1), 'refused (8): the SQL text would be longer than 65,535 bytes')

    def test_the_controllers_limits(self):
        """By both writings; what it accepts has the same text, and the same warnings."""
        for data, words in OWN_LIMITS:
            data = (data if isinstance(data, str) else json.dumps(data)).encode()
            for writing in ('rust', 'geopackage'):
                arguments = '-', '--function', 'f', '--writing', writing
                planner, controller = run(*arguments, data=data), run(*arguments, '--controller', data=data)
                self.assertEqual(planner.returncode, 0)
                if words:
                    self.assertEqual(self.line(controller, 1), words)
                else:
                    self.assertEqual((controller.stdout, controller.stderr, controller.returncode), (planner.stdout, planner.stderr, 0))

    def test_refusals_of_the_controller(self):
        """What the planner's calls refuse with 6 or 7 it refuses in the same words, unless a limit of its own comes first."""
        for data, number, *_ in REFUSED:
            data = (data if isinstance(data, str) else json.dumps(data)).encode()
            planner, controller = (self.line(run('-', '--function', 'lower', *words, data=data), 1) for words in ([], ['--controller']))
            self.assertTrue(controller == planner or controller.startswith(('refused (2): ', 'refused (4) ', 'refused (8): ')), controller)
            self.assertTrue(number in (2, 4, 6, 7) or controller != planner)

    def test_function_names(self):
        keyword = 'the function %s is a keyword of SQLite: give it another name where it is registered, or use another function'
        for name, words in (('a b', NAME_RULE), ('x' * 300, NAME_RULE), ('Not', keyword % 'Not'), ('replace', keyword % 'replace')):
            data = json.dumps(op('=', op(name), 1))
            line = self.line(run('-', '--function', name, data=data.encode()), 1)
            self.assertTrue(line.startswith('refused (6) at $.args[0].op: ' + words), line)
        self.assertEqual(self.line(run('true', '--function', 'not'), 2), 'argument --function: not is an operator (see ./filter --help)')

    def test_too_deep_to_be_read(self):
        for data in ('[' * 5000, nested(450)):
            self.assertEqual(self.line(run('-', data=data.encode()), 1), "refused (4): the filter lies deeper than any caller's levels")

    def test_bytes_that_are_no_text(self):
        self.assertEqual(self.line(run('-', data=b'"\xff"'), 2), 'the filter is not UTF-8 text (byte 1)')
        self.assertEqual(self.line(run('-', data=bytes(range(256))), 2), 'the filter is not UTF-8 text (byte 128)')
        self.assertEqual(self.line(run('-', data=b'\0\0'), 2), 'the filter is not JSON: Expecting value at line 1, column 1')

    def test_files_and_options(self):
        self.assertEqual(self.line(run('no/such.json'), 2), 'cannot read the filter no/such.json: No such file or directory')
        self.assertEqual(self.line(run('/'), 2), 'cannot read the filter /: Is a directory')
        self.assertEqual(self.line(run("label = 'cup'"), 2), IS_TEXT)
        self.assertEqual(self.line(run('not in.json'), 2), 'cannot read the filter not in.json: No such file or directory')
        with tempfile.TemporaryDirectory() as folder:
            for data, words in ((b'', 'is empty'), (b'{', 'is not JSON: Expecting property name enclosed in double quotes at line 1, column 2'),
                                (b'a = 1', IS_TEXT.removeprefix('the filter ')), (b'\xff', 'is not UTF-8 text (byte 0)')):
                path = os.path.join(folder, 'f.json')
                with open(path, 'wb') as f:
                    f.write(data)
                self.assertEqual(self.line(run(path), 2), 'the filter %s %s' % (path, words))
        self.assertEqual(self.line(run(), 2), 'the following arguments are required: FILTER (see ./filter --help)')
        self.assertEqual(self.line(run('true', '--precision', '16'), 2),
                         'argument --precision: a whole number from 0 to 15 is due (see ./filter --help)')
        self.assertEqual(self.line(run('true', '--srid', '-1'), 2),
                         'argument --srid: a whole number from 0 to 4294967295 is due (see ./filter --help)')
        self.assertEqual(self.line(run('true', '--writing', 'gpkg'), 2),
                         'argument --writing: rust or geopackage is due (see ./filter --help)')
        self.assertEqual(self.line(run('true', '--colour'), 2), 'unrecognized arguments: --colour (see ./filter --help)')
        self.assertTrue(self.line(run('true', '--ci', 'a b'), 2).startswith('a collation of the settings: a name has'))

    def test_closed_streams(self):
        for closed, status, told in (('- <&-', 2, b'filter: the filter is empty\n'), ('true >&-', 0, b''), ("'{' 2>&-", 2, b''), ("'{' 2>/dev/full", 2, b'')):
            done = subprocess.run('%s %s' % (FILTER, closed), shell=True, executable='/bin/bash', capture_output=True)
            self.assertEqual((done.returncode, done.stdout, done.stderr), (status, b'', told), closed)

    def test_no_program_and_no_kit(self):
        with tempfile.TemporaryDirectory() as folder:
            subprocess.run(['cp', '-r', FILTER, os.path.join(proved.ROOT, 'tools'), os.path.join(proved.ROOT, 'crates.txt'), folder], check=True)
            done = subprocess.run([sys.executable, os.path.join(folder, 'filter'), 'true'], capture_output=True, env={'PATH': folder})
            self.assertEqual(self.line(done, 2), 'the proved program is not built, and `rt` of the Rattle kit is not on the PATH')

    def test_a_text_is_written_as_utf_8(self):
        """Whatever characters the terminal has."""
        done = run('-', data=json.dumps(op('=', A, "Flügel 🔩 o'")).encode(), env={**os.environ, 'PYTHONIOENCODING': 'latin-1'})
        self.assertEqual((done.stdout, done.stderr), ("a = 'Flügel 🔩 o'''\n".encode(), b''))

    def test_help_and_broken_pipe(self):
        done = run('--help')
        self.assertEqual((done.returncode, done.stderr), (0, b''))
        self.assertIn(b'examples:', done.stdout)
        done = subprocess.run('%s true | head -c 0; echo ${PIPESTATUS[0]}' % FILTER, shell=True, executable='/bin/bash', capture_output=True)
        self.assertEqual((done.stdout.strip(), done.stderr), (b'0', b''))
        with open('/dev/full', 'w') as full:
            done = subprocess.run([FILTER, 'true'], stdout=full, stderr=subprocess.PIPE)
        self.assertEqual((done.returncode, done.stderr), (2, b'filter: No space left on device\n'))


if __name__ == '__main__':
    unittest.main()
