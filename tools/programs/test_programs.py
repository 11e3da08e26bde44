"""Tests of the programs `lower`, `lower_reduced` and `read` as they stand on standard input: cut input, lengths that lie, slow pipes, long runs.

  python3 -m unittest discover -s tools     all tests of the command and of the programs"""
import itertools
import os
import random
import struct
import subprocess
import sys
import unittest

sys.path.insert(0, os.path.join(os.path.dirname(os.path.abspath(__file__)), '..'))
from answers.stored import framed
from cql2 import callers, proved
from cql2.writing import ARGUMENTS as WORDS
from generators import caller_limits, filters, readings, reductions, stamps, text_cases, texts, trees
from model import calls
from model.limits import CONTROLLER
from model.records import encode, row as row_of, settings_record
from programs.cases import LOWER, NULL, READ, REDUCED, ROW_N, SETTINGS, SHEET_J, STAMPED, TEXT_J


def answers(name, data, *words):
    return subprocess.run([proved.path_of(name), *words], input=data, capture_output=True, check=True, timeout=60).stdout.decode().split('\n')[:-1]


class Programs(unittest.TestCase):
    @classmethod
    def setUpClass(cls):
        proved.build(['lower', 'lower_reduced', 'read'])

    def test_no_input_no_answer(self):
        for name in ('lower', 'lower_reduced', 'read'):
            self.assertEqual(answers(name, b''), [])

    def test_both_writings(self):
        data = b''.join(framed(*parts) for parts, *_ in STAMPED)
        self.assertEqual(answers('lower', data), [line for _, line, _ in STAMPED])
        self.assertEqual(answers('lower', data, 'geopackage'), [line for *_, line in STAMPED])
        self.assertEqual(answers('lower', b''.join(framed(*parts) for parts, _ in LOWER), 'geopackage'), [line for _, line in LOWER])

    def test_other_arguments(self):
        for words in (['rust'], ['geopackage', 'geopackage'], [''], ['GEOPACKAGE'], ['--help'], ['planner'], ['geopackage', 'controller'],
                      ['controller', 'controller'], ['controller', 'geopackage', 'geopackage'], ['controllers'], ['controller', ''], ['reduce'],
                      ['reduce', 'controller'], ['reduce', 'controller', 'geopackage'], ['reduce', 'reduce'], ['controller', 'reduce'],
                      ['geopackage', 'reduce'], ['reduced']):
            for name in ('lower', 'lower_reduced'):
                done = subprocess.run([proved.path_of(name), *words], input=framed(SETTINGS, NULL), capture_output=True, timeout=60)
                self.assertEqual((done.stdout, done.stderr), (b'', b'usage: %s [controller] [geopackage]\n' % name.encode()), words)

    def test_each_cut_of_a_case_is_told(self):
        for name, case in (('lower', framed(SETTINGS, SHEET_J)), ('lower_reduced', framed(SETTINGS, SHEET_J)), ('read', framed(TEXT_J, ROW_N))):
            for n in range(1, len(case)):
                self.assertEqual(answers(name, case[:n]), ['incomplete'], n)
            self.assertNotEqual(answers(name, case), ['incomplete'])

    def test_a_length_that_promises_too_much(self):
        for name in ('lower', 'lower_reduced', 'read'):
            for n in (100, 65536, 65537, 2 ** 31, 2 ** 32 - 1):
                self.assertEqual(answers(name, struct.pack('<I', n) + b'x' * 99), ['incomplete'])

    def test_lengths_about_the_buffer(self):
        for n in (32768, 32769, 65535, 65536, 65537, 131071, 131072, 131073, 200000):
            number = 3 if n <= 32768 else 2
            self.assertEqual(answers('lower', framed(SETTINGS, bytes(n)) + framed(bytes(n), NULL) + framed(SETTINGS, NULL)),
                             ['refused %d' % number, 'refused 1', 'NULL'])
            text = 'true' if n <= 65535 else 'refused 10'
            row = 'refused 11' if n <= 32768 else 'refused 10'
            self.assertEqual(answers('read', framed(b'TRUE'.rjust(n), b'') + framed(b'TRUE', bytes(n)) + framed(b'FALSE', b'')), [text, row, 'false'])

    def test_a_long_run(self):
        self.assertEqual(answers('lower', framed(SETTINGS, SHEET_J) * 20000), [TEXT_J.decode()] * 20000)
        self.assertEqual(answers('read', framed(TEXT_J, ROW_N) * 20000), ['unknown'] * 20000)

    def test_a_slow_pipe(self):
        for name, cases in (('lower', LOWER[:1] + LOWER[4:]), ('read', READ[:5] + READ[9:])):
            process = subprocess.Popen([proved.path_of(name)], stdin=subprocess.PIPE, stdout=subprocess.PIPE)
            for byte in b''.join(framed(*parts) for parts, _ in cases):
                process.stdin.write(bytes([byte]))
                process.stdin.flush()
            told = process.communicate()[0].decode().split('\n')[:-1]
            self.assertEqual(told, [line for _, line in cases])

    def test_lowerings_of_the_model(self):
        made = [*filters.accepted(2000, 7), *filters.accepted(2000, 8, texts.random_text), *filters.accepted(2000, 9, texts.random_text, stamps.Maker)]
        cases = [(settings_record(settings), encode(tree)) for settings, tree in made] + list(trees.mutations(2000, 7))
        cases += [(SETTINGS, encode(tree)) for tree in (*caller_limits.chains(CONTROLLER), *caller_limits.tree_sizes(CONTROLLER))]
        for (caller, limit), (writing, words) in itertools.product(callers.LIMITS.items(), WORDS.items()):
            told = answers('lower', b''.join(framed(*case) for case in cases), *callers.ARGUMENTS[caller], *words)
            for case, line in zip(cases, told):
                want = calls.to_sql(*case, limit.text, writing, limit)
                self.assertEqual(line, want.decode() if isinstance(want, bytes) else 'refused %d' % want, case)
            self.assertEqual(len(told), len(cases))
            own = {'refused 2', 'refused 4', 'refused 8'} if limit == CONTROLLER else set()
            self.assertTrue(set(told) >= {'refused 3', 'refused 5', 'refused 6', 'refused 7', *own})

    def test_reduced(self):
        self.assertEqual(answers('lower_reduced', b''.join(framed(*parts) for parts, _ in REDUCED)), [line for _, line in REDUCED])
        stamped = b''.join(framed(*parts) for parts, *_ in STAMPED)
        self.assertEqual(answers('lower_reduced', stamped, 'geopackage'), [line for *_, line in STAMPED])

    def test_reduced_lowerings_of_the_model(self):
        r = random.Random(8)
        some = [reductions.Maker(r, texts.random_text).tree(4) for _ in range(2000)]
        some += [*reductions.monadics(), *reductions.logic(), *reductions.places(), *reductions.deep(), *reductions.long()]
        cases = [(SETTINGS, encode(tree)) for tree in some]
        cases += [*((SETTINGS, tree) for _, tree in reductions.wrong()), *trees.mutations(2000, 8)]
        for (caller, limit), (writing, words) in itertools.product(callers.LIMITS.items(), WORDS.items()):
            told = answers('lower_reduced', b''.join(framed(*case) for case in cases), *callers.ARGUMENTS[caller], *words)
            for case, line in zip(cases, told):
                want = calls.reduced_to_sql(*case, limit.text, writing, limit)
                self.assertEqual(line, want.decode() if isinstance(want, bytes) else 'refused %d' % want, case)
            self.assertEqual(len(told), len(cases))
            self.assertTrue(set(told) >= {'refused %d' % n for n in (2, 3, 4, 5, 6, 7, 14)})

    def test_readings_of_the_model(self):
        r = random.Random(7)
        cases = []
        for _ in range(5000):
            cells = readings.some_row(r)
            cases.append((readings.joined(r, readings.expression(r, cells, r.randrange(5))), row_of(cells)))
        cases += [*readings.random_readings(1000, 7), *text_cases.joined(), *text_cases.marks()]
        told = answers('read', b''.join(framed(*case) for case in cases))
        for case, line in zip(cases, told):
            want = calls.read(*case)
            self.assertEqual(line, want if isinstance(want, str) else 'refused %d' % want, case)
        self.assertEqual(len(told), len(cases))
        self.assertEqual(set(told), {'true', 'false', 'unknown', 'refused 11', 'refused 12', 'refused 13'})


if __name__ == '__main__':
    unittest.main()
