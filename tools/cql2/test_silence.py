"""Random filters about time, texts and numbers on random rows: where SQLite picks other rows than CQL2 does, evaluated here without any text, there is a
warning; and most filters have none. In GeoPackage's writing open ends are right, so that they have none there."""
import collections
import itertools
import json
import random
import re
import sqlite3
import unittest

from answers.instants import FORMULAS

from . import differences, lowering, prepare, proved, records, test_random
from .columns import Column, NoTable, form
from .geopackage import collation, without_accents
from .reading import read_filter
from .test_texts import SETTINGS, op, tree_of
from .writing import ARGUMENTS, GEOPACKAGE, RUST

DAYS = ['2024-01-0%d' % k for k in range(1, 6)]
NOONS = [day + 'T12:00:00Z' for day in DAYS]
BELOW, ABOVE = '', '~'    # open ends, as texts that sort before and after all instants
RELATIONS = {'t_' + name[1].lower() + name[2:]: formula for name, formula in FORMULAS.items()}
INSTANTS = ('t_after', 't_before', 't_disjoint', 't_equals', 't_intersects')
COMPARED = {'=': lambda x, y: x == y, '<>': lambda x, y: x != y, '<': lambda x, y: x < y, '>': lambda x, y: x > y, '<=': lambda x, y: x <= y,
            '>=': lambda x, y: x >= y}


class Maker:
    """Filters over the dates a <= b and c <= d, the texts s and t, and the whole numbers m and n."""
    kind, declared, written, held = 'date', 'DATE', DAYS, DAYS    # of an instant: how it is written and declared, and those of filters and of rows

    def __init__(self, seed):
        self.r = random.Random(seed)

    def instant(self):
        return {self.kind: self.r.choice(self.written)}

    def interval(self):
        first, last = sorted(self.r.sample(self.written, 2))
        return {'interval': self.r.choice(([{'property': 'a'}, {'property': 'b'}], [{'property': 'c'}, {'property': 'd'}], [first, last], ['..', first],
                                           [first, '..'], ['..', {'property': 'b'}], [{'property': 'c'}, '..'], ['..', '..']))}

    def time(self):
        name = self.r.choice(sorted(RELATIONS))
        sides = [self.instant() if self.r.random() < .3 else {'property': self.r.choice('abcd')} for _ in range(2)]
        return op(name, *[x if name in INSTANTS and self.r.random() < .4 else self.interval() for x in sides])

    def character(self):
        value = self.r.choice(({'property': 's'}, {'property': 't'}, {'property': 's'}, {'property': 't'}, 'x', 'X', 'xy', '%', 'é', 'É', 'e', "x'"))
        for _ in range(self.r.choice((0, 0, 0, 1, 1, 2, 3))):
            value = op(self.r.choice(('casei', 'accenti')), value)
        return value

    def text(self):
        kind = self.r.random()
        if kind < .2:
            return op('like', self.character(), self.r.choice(('x%', '_', '%', op('casei', 'X%'), "%'", 'É%', 'é', op('casei', 'É'), op('accenti', 'e'))))
        if kind < .4:
            return op('in', self.character(), [op('casei', 'X') if self.r.random() < .3 else self.r.choice(('x', 'X', 'y', 'é', "x'")) for _ in range(self.r.choice((1, 2, 3)))])
        return op(self.r.choice(sorted(COMPARED)), self.character(), self.character())

    def number(self, depth):
        if depth and self.r.random() < .5:
            return op(self.r.choice('+-*/%'), self.number(depth - 1), self.number(depth - 1))
        return self.r.choice(({'property': 'm'}, {'property': 'n'}, 2, 7, 0.5))

    def condition(self, depth):
        if depth and self.r.random() < .6:
            name = self.r.choice(('and', 'or', 'not', 'not'))
            return op(name, *[self.condition(depth - 1) for _ in range(1 if name == 'not' else 2)])
        return self.r.choice((self.time, self.time, self.text, lambda: op(self.r.choice(sorted(COMPARED)), self.number(2), self.number(1)),
                              lambda: op('isNull', {'property': self.r.choice('abst')}),
                              lambda: op('isNull', self.time()) if self.r.random() < .3 else op('<', {'property': 'a'}, self.instant())))()

    def row(self):
        (a, b), (c, d) = (sorted(self.r.choice(self.held) for _ in range(2)) for _ in range(2))
        row = {'a': a, 'b': b, 'c': c, 'd': d, 's': self.r.choice(('x', 'X', 'xy', 'é', 'e', "x'", "'")), 't': self.r.choice(('x', 'X', 'é', 'É', "''", 'E')), 'm': self.r.randrange(-3, 9),
               'n': self.r.randrange(1, 5)}
        return {name: None if self.r.random() < .15 else value for name, value in row.items()}


class StampMaker(Maker):
    """The same over instants as a GeoPackage's DATETIME columns hold them."""
    kind, declared, written, held = 'timestamp', 'DATETIME', NOONS, [noon[:-1] + after for noon in NOONS for after in ('.000Z', '.000Z', '.001Z')]


def stored(x):
    """A written instant as a column would hold it: a timestamp with its milliseconds."""
    return x[:-1] + '.000Z' if x.endswith('Z') else x


def ends(value, row):
    """The two ends of a time operand, None for NULL."""
    if value is None or 'interval' not in value:
        return [scalar(value, row)] * 2
    return [row[x['property']] if isinstance(x, dict) else ((BELOW, ABOVE)[k] if x == '..' else stored(x)) for k, x in enumerate(value['interval'])]


def scalar(value, row):
    """A text or a number; None for NULL."""
    if not isinstance(value, dict):
        return value
    if 'property' in value:
        return row[value['property']]
    if 'op' not in value:
        return stored(value.get('date') or value['timestamp'])
    args = [scalar(x, row) for x in value['args']]
    if None in args:
        return None
    if value['op'] in ('casei', 'accenti'):
        return args[0].lower() if value['op'] == 'casei' else without_accents(args[0])
    if value['op'] in ('/', '%') and args[1] == 0:
        return None
    x, y = args
    if value['op'] == '%':
        return x - y * int(x / y)
    return {'+': x + y, '-': x - y, '*': x * y}[value['op']] if value['op'] != '/' else x / y


def matches(text, pattern):
    if not pattern:
        return not text
    if pattern[0] == '%':
        return any(matches(text[k:], pattern[1:]) for k in range(len(text) + 1))
    return bool(text) and pattern[0] in ('_', text[0]) and matches(text[1:], pattern[1:])


def truth(value, row):
    """CQL2's answer: True, False, or None for unknown; a predicate with a NULL in it is unknown."""
    if not isinstance(value, dict):
        return value
    name, args = value['op'], value['args']
    if name in ('and', 'or', 'not'):
        found = [truth(x, row) for x in args]
        if name == 'not':
            return None if found[0] is None else not found[0]
        ended = name == 'or'
        return ended if ended in found else None if None in found else not ended
    if name == 'isNull':
        return (truth(args[0], row) if 'op' in (args[0] or ()) else scalar(args[0], row)) is None
    if name in RELATIONS:
        found = [x for side in args for x in ends(side, row)]
        return None if None in found else RELATIONS[name](*found)
    left = scalar(args[0], row)
    if name == 'in':
        return None if left is None else any(left == scalar(x, row) for x in args[1])
    right = scalar(args[1], row)
    if left is None or right is None:
        return None
    return matches(left, right) if name == 'like' else COMPARED[name](left, right)


def by_time(data, value):
    """The answer by instants of time: texts of one width, which sort as time does."""
    end = lambda k, x: (BELOW, ABOVE)[k] if x == '..' else timed(x, value)
    found = [[end(k, y) for k, y in enumerate(x['interval'])] if 'interval' in x else [timed(x, value)] * 2 for x in data['args']]
    if data['op'] in COMPARED:
        return COMPARED[data['op']](found[0][0], found[1][0])
    return RELATIONS[data['op']](*found[0], *found[1])


def ends_open(data):
    return ', ".."]' in json.dumps(data)


class Log(NoTable):
    """The table of the makers' rows, in which the columns a to d hold instants as a GeoPackage stores them."""

    def column(self, name):
        return Column('DATETIME' if name in 'abcd' else 'TEXT' if name in 'st' else 'INTEGER')

    def forms(self, name):
        return {form(StampMaker.held[0]): StampMaker.held[0]} if name in 'abcd' else {}


class Typed(NoTable):
    """A table whose columns are all declared alike, and hold instants of one form."""

    def __init__(self, declared, value, writing):
        super().__init__(4326, writing)
        self.declared, self.value = declared, value

    def column(self, name):
        return Column(self.declared)

    def forms(self, name):
        return {form(self.value): self.value}


def timed(x, value):
    """An instant with three digits after its seconds, of an operand or an end; the column's value for a property."""
    if isinstance(x, dict):
        x = value if 'property' in x else x.get('date') or x['timestamp']
    return (x.replace('Z', '') if len(x) > 10 else x + 'T00:00:00').ljust(20, '.').ljust(23, '0')


class Silence(unittest.TestCase):
    def test_columns_of_dates_and_times(self):
        """Every operator between a column and written instants around its values, or open ends, in both orders and writings: another answer than by time
        has a warning, and of timestamps there is none where the column holds them as they are written; nor of open ends in GeoPackage's writing."""
        literals = [{'date': '2024-01-02'}, {'timestamp': '2024-01-02T00:00:00Z'}, {'timestamp': '2024-01-02T12:00:00Z'}]
        intervals = [{'interval': ['2024-01-02', '2024-01-03']}, {'interval': ['2024-01-02T00:00:00Z', '2024-01-02T12:00:00Z']},
                     {'interval': ['2024-01-02', '2024-01-02T12:00:00Z']}, {'interval': ['2024-01-02T12:00:00Z', '..']},
                     {'interval': ['2024-01-02', '..']}, {'interval': ['..', '2024-01-02T00:00:00Z']}, {'interval': ['..', '..']}]
        column, both, since = {'property': 'a'}, {'interval': [{'property': 'a'}, {'property': 'a'}]}, {'interval': [{'property': 'a'}, '..']}
        filters = [op(name, *pair) for name in COMPARED for x in literals for pair in ((column, x), (x, column))]
        filters += [op(name, *pair) for name in INSTANTS for x in literals + intervals for pair in ((column, x), (x, column))]
        filters += [op(name, *pair) for name in RELATIONS for x in intervals for y in (both, since) for pair in ((y, x), (x, y))]
        stored = ['2024-01-%sZ' % x for x in ('01T23:59:59.999', '02T00:00:00.000', '02T00:00:00.500', '02T12:00:00.000', '02T12:00:00.001')]
        seconds = ['2024-01-01T23:59:59', '2024-01-02T00:00:00', '2024-01-02T12:00:00', '2024-01-02T12:00:01']
        holding = [('DATE', ['2024-01-01', '2024-01-02', '2024-01-03']), ('DATETIME', stored), ('TEXT', stored), ('DATETIME', seconds), ('TEXT', seconds)]
        for writing, words in ARGUMENTS.items():
            texts = proved.run('lower', [(records.settings(*SETTINGS), tree_of(data).encode()) for data in filters], words)
            tally = {True: 0, False: 0}
            for (declared, values), (data, text) in itertools.product(holding, zip(filters, texts)):
                same = all(self.one(text, declared, value) == by_time(data, value) for value in values)
                warned = bool(differences.find(read_filter(json.dumps(data).encode()), Typed(declared, values[0], writing)))
                self.assertTrue(same or warned, (declared, text))
                as_written = values is (stored if writing == GEOPACKAGE else seconds) and not re.search(r"'[0-9-]{10}'", text)
                self.assertFalse(warned and as_written and (writing == GEOPACKAGE or not ends_open(data)), (declared, text))
                tally[warned] += 1
            self.assertTrue(min(tally.values()) > 30, tally)

    def one(self, text, declared, value):
        connection = sqlite3.connect(':memory:')
        connection.execute('CREATE TABLE x (a %s)' % declared)
        connection.execute('INSERT INTO x VALUES (?)', [value])
        return connection.execute('SELECT %s FROM x' % text).fetchone()[0]

    @classmethod
    def setUpClass(cls):
        proved.build(['lower'])

    def test_what_sqlite_cannot_run(self):
        """On filters of every operator: a warning that SQLite cannot run the text is right."""
        filters = [test_random.Maker(seed, 10 ** 9).condition(seed % 12) for seed in range(3000)]
        trees = [tree_of(data) for data in filters]
        texts = proved.run('lower', [(records.settings(*SETTINGS), tree.encode()) for tree in trees])
        wrong = 0
        for data, tree, text in zip(filters, trees, texts):
            scratch = prepare.Scratch(tree, SETTINGS[1:])
            found = [one for one in differences.find(read_filter(json.dumps(data).encode()), NoTable(4326)) if one.cannot]
            # beside a constant SQLite drops what it would not take
            constant = 'TRUE' in text or 'FALSE' in text
            if lowering.refusal_of(text) is None and not constant and any('ST_ReducePrecision' not in one.happens for one in found):
                self.assertIsNotNone(scratch.error(text), (data, found))
                wrong += 1
        self.assertGreater(wrong, 100)

    def test_functions_with_names_like_operators(self):
        for name in ('t_f', 's_f', 'a_f'):
            data = op('not', op(name, {'property': 'a'}, {'property': 'b'}, {'date': DAYS[0]}))
            self.assertEqual(differences.find(data, NoTable(4326)), [])

    def picks(self, texts, rows, declared):
        connection = sqlite3.connect(':memory:')
        for name, key in zip(SETTINGS[1:], (str.lower, without_accents, lambda x: without_accents(x.lower()))):
            connection.create_collation(name, collation(key))
        connection.execute('CREATE TABLE x (%s, s TEXT, t TEXT, m INTEGER, n INTEGER)' % ', '.join('%s %s' % (name, declared) for name in 'abcd'))
        connection.executemany('INSERT INTO x VALUES (?, ?, ?, ?, ?, ?, ?, ?)', [list(row.values()) for row in rows])
        return [[row[0] - 1 for row in connection.execute('SELECT rowid FROM x WHERE ' + text)] for text in texts]

    def tally(self, makers, table):
        """How many filters have no warning, and of how many SQLite picks other rows than CQL2: by whether they have an open end. A filter that is both is
        an error."""
        filters = [maker.condition(maker.r.randrange(4)) for maker in makers]
        rows = [makers[0].row() for _ in range(60)]
        cases = [(records.settings(*SETTINGS), tree_of(data).encode()) for data in filters]
        silent, parted = collections.Counter(), collections.Counter()
        for data, picked in zip(filters, self.picks(proved.run('lower', cases, ARGUMENTS[table.writing]), rows, makers[0].declared)):
            right = [k for k, row in enumerate(rows) if truth(data, row)]
            warned = differences.find(read_filter(json.dumps(data).encode()), table)
            if picked != right:
                first = next(k for k in range(len(rows)) if (k in picked) != (k in right))
                self.assertTrue(warned, '%s: %s picks or leaves out %s' % (table.writing, json.dumps(data), rows[first]))
            silent[ends_open(data)] += not warned
            parted[ends_open(data)] += picked != right
        return silent, parted

    def test_no_difference_without_a_warning(self):
        """Filters about dates in both writings, and about timestamps in that of the columns. Without open ends the two writings of dates are the same."""
        rust, geopackage = (self.tally([Maker(seed) for seed in range(4000)], NoTable(4326, writing)) for writing in (RUST, GEOPACKAGE))
        stamped = self.tally([StampMaker(seed) for seed in range(4000)], Log(4326, GEOPACKAGE))
        for silent, parted in (rust, geopackage, stamped):
            self.assertTrue(silent[False] > 2000 and parted[False] > 300, (silent, parted))
        self.assertEqual([counts[False] for counts in rust], [counts[False] for counts in geopackage])
        for silent, parted in (geopackage, stamped):
            self.assertTrue(silent[True] > 500 and parted[True] < rust[1][True] // 2, (silent, parted, rust))


if __name__ == '__main__':
    unittest.main()
