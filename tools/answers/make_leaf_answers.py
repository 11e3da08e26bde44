#!/usr/bin/env python3
"""Writes leaves, records of the kinds 0 to 7, with the texts that the Rust writes, for crates/replay: data/leaves and its line of stdout.

usage: python3 tools/answers/make_leaf_answers.py ORACLE     ORACLE: the program that ../shared/oracle/build.py makes

Writes nothing and exits with 1 if a text of the Rust is not the model's, or if there are fewer than 747 leaves."""
import os
import random
import sys

sys.path.insert(0, os.path.join(os.path.dirname(os.path.abspath(__file__)), '..'))
from answers import counts, stored
from answers.compare_lowerings import compared
from generators import leaves
from model.records import SHEET_SETTINGS, encode

SEED, CASES = 4, 747


def main(oracle):
    trees = [('null',), ('unbounded',), ('bool', 0), ('bool', 1), *leaves.fields(random.Random(SEED))]
    agree, differ = compared(oracle, [(SHEET_SETTINGS, tree) for tree in trees])
    print('%d leaves, %d differ from the model' % (len(trees), differ))
    counts.stop_if_wrong(differ, ('leaves', len(trees), CASES))
    stored.write_cases('leaves', [(encode(tree), text) for _, tree, text in agree], '%d leaves right of %d' % (len(agree), len(agree)))


if __name__ == '__main__':
    sys.exit(__doc__) if len(sys.argv) != 2 else main(os.path.abspath(sys.argv[1]))
