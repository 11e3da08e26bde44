#!/usr/bin/env python3
"""Writes SQL texts and rows with the model's answers, which were held against SQLite, for crates/replay: data/readings and its line
of stdout.

usage: python3 tools/answers/make_reading_answers.py

Writes nothing and exits with 1 where compare_readings.py does, or if there are fewer than 1,655 cases: all at the edges, 1,300 random ones."""
import collections
import os
import random
import sys

sys.path.insert(0, os.path.join(os.path.dirname(os.path.abspath(__file__)), '..'))
from answers import compare_readings, counts, stored

CASES, SAMPLE = 1655, 1300
SMALL = 700    # bytes of a random text and its row together, if they are stored


def main():
    edges, others = compare_readings.compared()
    small = [k for k, (text, row, _) in enumerate(others) if len(text) + len(row) < SMALL]
    picked = sorted(random.Random(compare_readings.SEED).sample(small, SAMPLE))
    cases = edges + [others[k] for k in picked]
    print('%d cases' % len(cases))
    counts.stop_if_wrong(0, ('cases', len(cases), CASES))
    stored_cases = [stored.reading_case(*case) for case in cases]
    tally = collections.Counter(answer[0] for *_, answer in stored_cases)
    stored.write_cases('readings', stored_cases, stored.reading_line(tally))


if __name__ == '__main__':
    sys.exit(__doc__) if len(sys.argv) != 1 else main()
