"""Random filters, right ones and ones with faults, against tools/model: the same text or the same refusal, and the right place."""
import json
import os
import random
import sys
import unittest

sys.path.insert(0, os.path.join(os.path.dirname(os.path.abspath(__file__)), '..'))
from model import calls

from . import lowering, proved, records
from .encode import Encoder
from .errors import Refused
from .reading import read_filter
from .test_texts import SETTINGS, op
from .writing import ARGUMENTS


class Maker:
    """Filters as CQL2-JSON has them; about one leaf in `rare` (as many as the seed says) breaks a rule of document 01."""

    def __init__(self, seed, rare):
        self.r, self.rare = random.Random(seed), rare

    def faulty(self):
        return self.r.random() * self.rare < 1

    def name(self):
        return {'property': self.r.choice(('a b', '1', 'or', '', 'é', 'x' * 65)) if self.faulty() else self.r.choice(('a', 'b1', '_c', 'x' * 64))}

    def text(self):
        if self.faulty():
            return self.r.choice(('\n', "it's\x7f", '\ud800', 'é\udc80', 'x' * 4097, 'é' * 2049))
        return self.r.choice(('', 'x', 'two words', '%_"', "O'Ring 5 mm", "''", 'Flügel', "🔩'\x80", "'" * 30))

    def number(self):
        return self.r.choice((1e15, 1e-10, 1e300)) if self.faulty() else self.r.choice((0, 1, -2.5, 1e-9, 999999999999999, 0.25))

    def day(self):
        return self.r.choice(('2023-02-29', '0000-01-01', '2024-13-01')) if self.faulty() else self.r.choice(('2024-02-29', '0001-01-01', '9999-12-31'))

    def instant(self):
        if self.r.random() < .5:
            return {'date': self.day()}
        return {'timestamp': self.day() + self.r.choice(('T24:00:00Z', 'T00:60:00Z') if self.faulty() else ('T00:00:00Z', 'T23:59:59.000Z'))}

    def time(self, depth):
        ends = lambda: self.r.choice((self.day(), '..', self.name(), None))
        return self.r.choice((lambda: self.name(), lambda: self.instant(), lambda: {'interval': [ends(), ends()]}, lambda: self.function(depth)))()

    def space(self):
        return self.r.choice((self.name(), {'type': 'Point', 'coordinates': [self.r.uniform(-180, 180), 2]}, {'bbox': [1, 2, 3, 4]}))

    def numeric(self, depth):
        if depth and self.r.random() < .4:
            return op(self.r.choice('+ - * / div % ^'.split()), self.numeric(depth - 1), self.numeric(depth - 1))
        return self.r.choice((self.name(), self.number()))

    def character(self, depth):
        if depth and self.r.random() < .4:
            return op(self.r.choice(('casei', 'accenti')), self.character(depth - 1))
        return self.r.choice((self.name(), self.text()))

    def scalar(self, depth):
        return self.r.choice((lambda: self.numeric(depth), lambda: self.character(depth), lambda: self.instant(), lambda: self.r.random() < .5))()

    def function(self, depth):
        return op('f', *[self.condition(depth - 1) if depth > 0 else self.name() for _ in range(self.r.randrange(3))])

    def condition(self, depth):
        below = depth - 1
        if depth <= 0:
            return self.r.choice((True, False, self.name()))
        return self.r.choice((
            lambda: op(self.r.choice(('and', 'or')), *[self.condition(below) for _ in range(self.r.randrange(2, 6))]),
            lambda: op('not', self.condition(below)),
            lambda: op(self.r.choice('= <> < > <= >='.split()), self.scalar(below), self.scalar(below)),
            lambda: op('isNull', self.time(below) if self.faulty() else self.scalar(below)),
            lambda: op('like', self.character(below), self.text()),
            lambda: op('between', self.numeric(below), self.numeric(below), self.numeric(below)),
            lambda: op('in', self.scalar(below), [self.scalar(below) for _ in range(self.r.randrange(4))]),
            lambda: op('s_' + self.r.choice('intersects equals touches within overlaps'.split()), self.space(), self.space()),
            lambda: op('t_' + self.r.choice('after before disjoint equals intersects'.split()), self.time(below), self.time(below)),
            lambda: op('t_' + self.r.choice('during meets startedBy'.split()), *[
                self.time(below) if self.faulty() else {'interval': [self.name(), self.r.choice((self.day(), '..'))]} for _ in range(2)]),
            lambda: op('a_contains', [self.scalar(below), self.time(below) if self.faulty() else 1], self.name()),
            lambda: self.function(below)))()


class Random(unittest.TestCase):
    @classmethod
    def setUpClass(cls):
        proved.build(['lower', 'read'])

    def trees(self):
        for seed in range(3600):
            maker = Maker(seed, (10 ** 9, 8, 30)[seed % 3])
            data = json.dumps(maker.condition(seed % 12))
            yield data, Encoder(7, 4326, ['f']).filter(read_filter(data.encode()))

    def test_texts_and_refusals(self):
        settings = records.settings(*SETTINGS)
        trees = list(self.trees())
        for writing, words in ARGUMENTS.items():
            tally = {}
            for (data, tree), line in zip(trees, proved.run('lower', [(settings, tree.encode()) for _, tree in trees], words)):
                due = calls.heard(calls.lowered, settings, tree.encode(), writing)
                self.assertEqual(line, due.decode() if isinstance(due, bytes) else 'refused %d' % due, data)
                tally[lowering.refusal_of(line)] = tally.get(lowering.refusal_of(line), 0) + 1
            self.assertTrue(all(tally.get(n, 0) > 20 for n in (None, 6, 7)), tally)

    def test_places(self):
        """What the place names is at fault: with true or a plain value put there, the refusal is gone or stands later."""
        settings, seen = records.settings(*SETTINGS), 0
        for data, tree in self.trees():
            if seen == 60:
                break
            if calls.check(settings, tree.encode()) not in (6, 7):
                continue
            seen += 1
            with self.assertRaises(Refused) as first:
                lowering.lower(settings, tree)
            value = json.loads(data)
            try:
                mended = Encoder(7, 4326, ['f']).filter(read_filter(json.dumps(put(value, first.exception.place)).encode()))
                lowering.lower(settings, mended)
            except Refused as later:
                self.assertNotEqual((later.number, later.place), (first.exception.number, first.exception.place), data)
        self.assertEqual(seen, 60)


def put(value, place):
    """The filter with something plain at the place."""
    holder = [value]
    keys = [0] + [int(k) if k.isdigit() else k for k in place[1:].replace('[', '.').replace(']', '').split('.')[1:]]
    at = holder
    for key in keys[:-1]:
        at = at[key]
    plain = {'property': 'a', 'date': '2024-01-01', 'timestamp': '2024-01-01T00:00:00Z'}
    if keys[-1] == 'interval':
        at.clear()
        at['property'] = 'a'
    elif keys[-1] in plain:
        at[keys[-1]] = plain[keys[-1]]
    elif isinstance(at[keys[-1]], str) and len(keys) > 1 and keys[-2] == 'interval':
        at[keys[-1]] = '2024-01-01'
    else:
        old = at[keys[-1]]
        at[keys[-1]] = 'x' if isinstance(old, str) else 1 if not isinstance(old, dict) else True
    return holder[0]


if __name__ == '__main__':
    unittest.main()
