"""Tests of --reduce: texts by hand, against tools/model and against the Rust; refusals and their places; warnings about what is not in the text."""
import itertools
import json
import os
import sys
import unittest

sys.path.insert(0, os.path.join(os.path.dirname(os.path.abspath(__file__)), '..'))
from model import calls

from . import callers, differences, lowering, proved, records, reducing, rust, test_silence
from .columns import NoTable
from .encode import Encoder
from .errors import Refused
from .reading import read_filter
from .test_errors import nested, run
from .test_random import Maker
from .test_texts import A, AB, B, DAY, LATER, SETTINGS, interval, op, tree_of
from .writing import ARGUMENTS, GEOPACKAGE

MIDNIGHT, NOON = {'timestamp': '2024-02-29T00:00:00Z'}, {'timestamp': '2024-02-29T12:00:00Z'}
CONSTANT, NOTHING = op('=', 1, 1), op('=', A, None)
TEXTS = [    # a filter, its text as it is, and its text reduced
    (NOTHING, 'a = (NULL)', 'NULL'),
    (op('or', op('isNull', None), NOTHING), '((NULL) IS NULL) OR (a = (NULL))', 'TRUE'),
    (op('not', op('and', None, False)), 'NOT ((NULL) AND FALSE)', 'TRUE'),
    (op('and', A, op('or', None, True)), 'a AND ((NULL) OR TRUE)', 'a AND TRUE'),
    (op('and', A, False), 'a AND FALSE', 'a AND FALSE'),
    (op('t_equals', DAY, MIDNIGHT), "'2024-02-29' = '2024-02-29T00:00:00'", 'TRUE'),
    (op('t_equals', DAY, NOON), "'2024-02-29' = '2024-02-29T12:00:00'", 'FALSE'),
    (op('t_after', LATER, DAY), "'2024-03-01T23:59:58' > '2024-02-29'", 'TRUE'),
    (op('t_disjoint', None, AB), '("b" IS NOT NULL AND (NULL < a)) OR ("a" IS NOT NULL AND (NULL > b))', 'NULL'),
    (op('t_after', A, interval(B, op('f', op('not', False)))), '"b" IS NOT NULL AND (a > f(NOT FALSE))', '"b" IS NOT NULL AND (a > f(TRUE))'),
    (op('in', A, [op('f', op('isNull', None)), 1]), 'a IN ((f((NULL) IS NULL), 1))', 'a IN ((f(TRUE), 1))'),
    (op('=', op('casei', op('casei', A)), 'x'), "(a COLLATE CQL2_CI COLLATE CQL2_CI) = 'x'", "(a COLLATE CQL2_CI) = 'x'"),
    (op('between', A, 1, None), 'a BETWEEN 1 AND NULL', 'a BETWEEN 1 AND NULL'),
    (op('=', A, 'x'), "a = 'x'", "a = 'x'")]
SIDES = 'once they are reduced, both sides of %s are written values, %s and %s, and that is not reckoned'
REFUSED = [    # a filter, the refusal of reducing it, its place, and how its words begin
    (CONSTANT, 14, '$', SIDES % ('=', '1', '1')),
    (op('and', A, op('<', 1, op('+', B, op('*', 2, 3)))), 14, '$.args[1].args[1].args[1]', SIDES % ('*', '2', '3')),
    (op('like', 'a', 'b'), 14, '$', SIDES % ('like', "'a'", "'b'")),
    (op('not', op('=', DAY, MIDNIGHT)), 14, '$.args[0]', SIDES % ('=', "'2024-02-29'", "'2024-02-29T00:00:00'")),
    (op('or', op('=', A, 1), A, B, op('<', True, False)), 14, '$.args[3]', SIDES % ('<', 'TRUE', 'FALSE')),
    (op('t_meets', interval(A, op('f', CONSTANT)), AB), 14, '$.args[0].interval[1].args[0]', SIDES % ('=', '1', '1')),
    (op('in', A, [1, op('+', 1, 2)]), 14, '$.args[1][1]', SIDES % ('+', '1', '2')),
    (op('and', CONSTANT, op('=', {'property': 'order'}, 1)), 6, '$.args[1].args[0].property', 'the property order is a keyword of SQLite'),
    (op('and', CONSTANT, op('t_during', A, B)), 7, '$.args[1]', 't_during takes an interval on both sides'),
    (nested(33), 4, '$' + '.args[0]' * 32, 'this lies deeper than 32 levels')]


def with_column(value, place):
    """The filter with a column at the place."""
    holder = [value]
    at, keys = holder, [0] + [int(k) if k.isdigit() else k for k in place[1:].replace('[', '.').replace(']', '').split('.')[1:]]
    for key in keys[:-1]:
        at = at[key]
    at[keys[-1]] = A
    return holder[0]


class Texts(unittest.TestCase):
    @classmethod
    def setUpClass(cls):
        proved.build(['lower', 'lower_reduced'])

    def test_by_hand(self):
        for data, plain, due in TEXTS:
            with self.subTest(data):
                self.assertEqual(lowering.lower(records.settings(*SETTINGS), tree_of(data)), plain)
                self.assertEqual(lowering.lower(records.settings(*SETTINGS), tree_of(data), reduced=True), due)

    def test_of_the_command(self):
        data = json.dumps(op('and', op('t_after', A, NOON), op('isNull', None))).encode()
        for words, due in ((['--writing', 'geopackage'], "(a > '2024-02-29T12:00:00.000Z') AND TRUE"), (['--controller'], "(a > '2024-02-29T12:00:00') AND TRUE"),
                           (['--length'], '36'), (['--controller', '--writing', 'geopackage', '--length'], '41')):
            done = run('-', '--reduce', *words, data=data)
            self.assertEqual((done.stdout.decode(), done.stderr, done.returncode), (due + '\n', b'', 0))

    @unittest.skipUnless(rust.program(), rust.MISSING)
    def test_of_the_rust(self):
        told = rust.answers([(records.settings(*SETTINGS), tree_of(data).encode()) for data, *_ in TEXTS], 'reduce')
        self.assertEqual(told, [('T', due) for *_, due in TEXTS])

    def test_of_the_model(self):
        """Random filters of every operator by both callers and writings, and what is refused."""
        settings, tally = records.settings(*SETTINGS), {}
        filters = [json.dumps(Maker(seed, (10 ** 9, 8, 30)[seed % 3]).condition(seed % 12)) for seed in range(2000)]
        trees = [Encoder(7, 4326, ['f']).filter(read_filter(data.encode())) for data in filters]
        for (caller, limit), (writing, words) in itertools.product(callers.LIMITS.items(), ARGUMENTS.items()):
            told = proved.run('lower_reduced', [(settings, tree.encode()) for tree in trees], callers.ARGUMENTS[caller] + words)
            for tree, line in zip(trees, told):
                due = calls.reduced_to_sql(settings, tree.encode(), limit.text, writing, limit)
                self.assertEqual(line, due.decode() if isinstance(due, bytes) else 'refused %d' % due)
                tally[lowering.refusal_of(line)] = tally.get(lowering.refusal_of(line), 0) + 1
        self.assertTrue(all(tally.get(n, 0) > 15 for n in (None, 4, 6, 7, 14)), tally)


class Refusals(unittest.TestCase):
    def line(self, data, *words):
        done = run('-', '--reduce', '--function', 'f', *words, data=(data if isinstance(data, str) else json.dumps(data)).encode())
        self.assertEqual((done.stdout, done.returncode, done.stderr.count(b'\n')), (b'', 1, 1), done.stderr)
        return done.stderr.decode().removeprefix('filter: ').strip()

    def test_each(self):
        for data, number, place, words in REFUSED:
            with self.subTest(data):
                self.assertTrue(self.line(data).startswith('refused (%d) at %s: %s' % (number, place, words)), self.line(data))

    def test_limits_of_the_controller(self):
        """Reducing has the planner's limits; the controller's are for what comes of it."""
        told = run('-', '--reduce', '--controller', data=nested(20).encode())
        self.assertEqual((told.stdout, told.returncode), (b'TRUE\n', 0))
        deep, long = op('=', A, 1), op('in', A, ['x' * 300] * 8)
        for _ in range(9):
            deep = op('not', deep)
        for data, words in ((deep, '(4): the filter lies deeper than 8 levels'), (long, '(2): the filter is longer than 2,000 bytes as records')):
            self.assertEqual(self.line(data, '--controller'), "refused %s, the controller's limit, also when it is reduced" % words)
        self.assertEqual(self.line(nested(33), '--controller'), self.line(nested(33)))
        wide = op('t_equals', op('f', *['..'] * 150), interval(A, op('f', *['x'] * 40)))
        self.assertTrue(self.line(op('and', wide, wide), '--controller').startswith('refused (2)'))

    def test_places(self):
        """With a column at the place that is named, the 14 is gone or stands elsewhere."""
        settings, seen = records.settings(*SETTINGS), 0
        for seed in range(2000):
            data = Maker(seed, 10 ** 9).condition(seed % 7)
            tree = Encoder(7, 4326, ['f']).filter(read_filter(json.dumps(data).encode()))
            if calls.reduce(tree.encode(), 0) != 14:
                continue
            seen += 1
            with self.assertRaises(Refused) as first:
                lowering.lower(settings, tree, reduced=True)
            try:
                mended = Encoder(7, 4326, ['f']).filter(read_filter(json.dumps(with_column(data, first.exception.place)).encode()))
                lowering.lower(settings, mended, reduced=True)
            except Refused as later:
                self.assertNotEqual((later.number, later.place), (first.exception.number, first.exception.place), data)
            if seen == 80:
                return
        self.fail('only %d filters are a 14' % seen)


class Constants(test_silence.Maker):
    """Filters with null, true and false, and written dates against each other, in the places of conditions and of operands."""

    def time(self):
        made = super().time()
        return op(made['op'], *[None if self.r.random() < .1 and made['op'] in test_silence.INSTANTS else x for x in made['args']])

    def condition(self, depth):
        k = self.r.random()
        if k < .15:
            return self.r.choice((True, False, None))
        if k < .3:
            return op(self.r.choice(test_silence.INSTANTS), self.instant(), self.instant())
        if k < .4:
            return op(self.r.choice(('=', '<')), *self.r.sample(({'property': 's'}, None), 2))
        return op('isNull', None) if k < .45 else super().condition(depth)


class Warnings(unittest.TestCase):
    @classmethod
    def setUpClass(cls):
        proved.build(['lower', 'lower_reduced'])

    def test_what_is_not_in_the_text(self):
        """Two written instants are compared by time; what is said of another part stays."""
        apart, other = op('t_after', MIDNIGHT, DAY), op('like', A, 'X%')
        for data, places in ((apart, []), (op('not', apart), []), (op('and', A, apart), []), (op('and', apart, other), ['$.args[1].args[1]']),
                             (op('t_after', A, interval(DAY, NOON)), None), (op('or', op('isNull', apart), other), ['$.args[1].args[1]'])):
            plain, reduced = (run('-', *words, data=json.dumps(data).encode()).stderr.decode().splitlines() for words in ([], ['--reduce']))
            found = [line.split(': ')[1].removeprefix('warning at ') for line in reduced]
            self.assertTrue(found == (places if places is not None else found) and set(reduced) <= set(plain), (data, reduced))
            self.assertTrue(len(plain) > len(reduced) or places is None, (data, plain))

    def test_no_difference_without_a_warning(self):
        """As test_silence.py has it, of filters that reduce: SQLite picks CQL2's rows by the reduced text, or there is a warning that --reduce leaves."""
        settings, table = records.settings(*SETTINGS), NoTable(4326, GEOPACKAGE)
        makers = [Constants(seed) for seed in range(1500)]
        filters = [maker.condition(maker.r.randrange(4)) for maker in makers]
        rows = [makers[0].row() for _ in range(40)]
        trees = [tree_of(data) for data in filters]
        told = proved.run('lower_reduced', [(settings, tree.encode()) for tree in trees], ARGUMENTS[GEOPACKAGE])
        kept = [(data, tree, text) for data, tree, text in zip(filters, trees, told) if lowering.refusal_of(text) is None]
        silent = parted = 0
        for (data, tree, text), picked in zip(kept, test_silence.Silence().picks([text for *_, text in kept], rows, 'DATE')):
            gone = reducing.told_beforehand(settings, tree)
            warned = [one for one in differences.find(read_filter(json.dumps(data).encode()), table) if not reducing.lies_in(one.place, gone)]
            right = [k for k, row in enumerate(rows) if test_silence.truth(data, row)]
            self.assertTrue(picked == right or warned, (data, text))
            silent, parted = silent + (not warned), parted + (picked != right)
        self.assertTrue(silent > 500 and len(kept) > 1000, (silent, parted, len(kept)))


if __name__ == '__main__':
    unittest.main()
