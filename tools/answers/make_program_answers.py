#!/usr/bin/env python3
"""Writes what the gate runs the programs `lower`, `lower_reduced` and `read` on, and the lines they must answer: stdin and stdout of their crates.

usage: python3 tools/answers/make_program_answers.py

The answers are written by hand (tools/programs/cases.py). Writes nothing and exits with 1 if the model's answer to a whole case is another, or if
there are fewer than 11 cases for `lower`, 21 for `lower_reduced` or 17 for `read`."""
import os
import sys

sys.path.insert(0, os.path.join(os.path.dirname(os.path.abspath(__file__)), '..'))
from answers import counts, stored
from model import calls
from model.limits import PLANNER
from programs.cases import LOWER, LOWER_CUT, READ, READ_CUT, REDUCED


def line_of(answer):
    return 'refused %d' % answer if isinstance(answer, int) else answer if isinstance(answer, str) else answer.decode()


def main():
    models = {'lower': lambda settings, tree: calls.to_sql(settings, tree, PLANNER.text),
              'lower_reduced': lambda settings, tree: calls.reduced_to_sql(settings, tree, PLANNER.text), 'read': calls.read}
    differ = 0
    for name, cases in (('lower', LOWER), ('lower_reduced', REDUCED), ('read', READ)):
        for parts, line in cases:
            if line_of(models[name](*parts)) != line:
                differ += 1
                print('differs: %s' % name, parts[0][:100], parts[1][:100], 'by hand', line, 'model', line_of(models[name](*parts)))
        print('%s: %d cases' % (name, len(cases) + 1))
    counts.stop_if_wrong(differ, ('cases for lower', len(LOWER) + 1, 11), ('cases for lower_reduced', len(REDUCED) + 1, 21),
                         ('cases for read', len(READ) + 1, 17))
    for name, cases, cut in (('lower', LOWER, LOWER_CUT), ('lower_reduced', REDUCED, LOWER_CUT), ('read', READ, READ_CUT)):
        stored.write(b''.join(stored.framed(*parts) for parts, _ in cases) + cut, name, 'stdin')
        stored.write(''.join(line + '\n' for _, line in cases) + 'incomplete\n', name, 'stdout')


if __name__ == '__main__':
    sys.exit(__doc__) if len(sys.argv) != 1 else main()
