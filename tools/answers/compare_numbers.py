#!/usr/bin/env python3
"""Compares the Rust's texts of random numbers m ÷ 10^s with their exact decimal, which is the model's.

usage: python3 tools/answers/compare_numbers.py ORACLE N     ORACLE: the program that ../shared/oracle/build.py makes; N: how many numbers

Exits with 1 if one differs, or if fewer than N are answered."""
import os
import random
import sys

sys.path.insert(0, os.path.join(os.path.dirname(os.path.abspath(__file__)), '..'))
from answers import counts
from answers.compare_lowerings import compared
from generators import leaves
from model.records import SHEET_SETTINGS

SEED = 4


def main(oracle, count):
    rng = random.Random(SEED)
    agree, differ = compared(oracle, [(SHEET_SETTINGS, leaves.any_number(rng)) for _ in range(count)])
    print('%d numbers, %d differ from the exact decimal' % (len(agree) + differ, differ))
    counts.stop_if_wrong(differ, ('numbers', len(agree), max(count, 1)))


if __name__ == '__main__':
    sys.exit(__doc__) if len(sys.argv) != 3 or not sys.argv[2].isdecimal() else main(os.path.abspath(sys.argv[1]), int(sys.argv[2]))
