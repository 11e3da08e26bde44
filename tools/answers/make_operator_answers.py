#!/usr/bin/env python3
"""Writes the Rust's list of its operators for crates/replay, data/operators and its line of stdout: number, name, spelling, class bits.

usage: python3 tools/answers/make_operator_answers.py ORACLE     ORACLE: the program that ../shared/oracle/build.py makes

Writes nothing and exits with 1 if a line is not what tools/model says of that operator, or if there are fewer than 53 lines."""
import os
import subprocess
import sys

sys.path.insert(0, os.path.join(os.path.dirname(os.path.abspath(__file__)), '..'))
from answers import counts, stored
from model.operators import CLASSES, NAMES, SPELLING


def expected(number, name):
    bits = ''.join(str(int(name in some)) for some in CLASSES)
    return '%d\t%s\t%s\t%s' % (number, name, SPELLING.get(name, 'PANIC'), bits)    # without a spelling the Rust panics


def main(oracle):
    told = subprocess.run([oracle, 'ops'], capture_output=True, text=True, check=True).stdout
    lines = told.splitlines()
    differ = [(line, right) for line, right in zip(lines, map(expected, range(len(NAMES)), NAMES)) if line != right]
    for line, right in differ:
        print('differs: Rust %r, model %r' % (line, right))
    print('%d operators, %d differ from the model' % (len(lines), len(differ)))
    counts.stop_if_wrong(len(differ), ('operators', len(lines), len(NAMES)))
    stored.write_cases('operators', [(line.encode(),) for line in lines], '%d lines right of %d' % (len(lines), len(lines)))


if __name__ == '__main__':
    sys.exit(__doc__) if len(sys.argv) != 2 else main(os.path.abspath(sys.argv[1]))
