#!/usr/bin/env python3
"""Writes damaged.h: what a reader that shares nothing with the proved one answers to sheet J's text and to its row with one byte changed.

usage: python3 tests/c/damaged.py >tests/c/damaged.h"""
import itertools
import os
import sys

sys.path.insert(0, os.path.join(os.path.dirname(os.path.abspath(__file__)), '..', '..', 'tools'))
from model import c, records

TEXT = b'("c" IS NOT NULL AND (a < b)) OR ("b" IS NOT NULL AND (a > c))'
ROW = records.row([(b'a', b'x'), (b'b', None), (b'c', b'y')])


def changed(data):
    """Each byte changed to each value, the value it has among them."""
    for at, x in itertools.product(range(len(data)), range(256)):
        yield data[:at] + bytes([x]) + data[at + 1:]


def table(name, answers):
    """The answers as a C table: how many times each stands in a run."""
    runs = [(answer, len(list(group))) for answer, group in itertools.groupby(answers)]
    cells = ['{%d, %d}' % run for run in runs]
    lines = [', '.join(cells[k:k + 12]) for k in range(0, len(cells), 12)]
    return 'static const struct run %s[] = {\n    %s};\n' % (name, ',\n    '.join(lines))


def main():
    print('/* Written by tests/c/damaged.py: the answers of an independent reader, by runs of equal ones, for each byte and each value of it. */')
    print('struct run {\n    int answer, times;\n};\n')
    print(table('damaged_texts', [c.read(text, ROW) for text in changed(TEXT)]))
    print(table('damaged_rows', [c.read(TEXT, row) for row in changed(ROW)]), end='')


if __name__ == '__main__':
    sys.exit(__doc__) if len(sys.argv) != 1 else main()
