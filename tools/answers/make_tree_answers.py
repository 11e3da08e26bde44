#!/usr/bin/env python3
"""Writes settings and trees at the edges of every rule with the model's answers, for crates/replay: data/trees and its line of
stdout.

usage: python3 tools/answers/make_tree_answers.py

Writes nothing and exits with 1 if there are fewer than 10,740 cases, or if one of the answers 0 (accepted) to 7 is not among them."""
import collections
import os
import sys

sys.path.insert(0, os.path.join(os.path.dirname(os.path.abspath(__file__)), '..'))
from answers import counts, stored
from generators import trees
from model import calls

CASES, MUTATIONS = 10740, 3000


def main():
    cases = list(dict.fromkeys([*trees.edges(), *trees.mutations(MUTATIONS)]))
    answers = [calls.check(*case) for case in cases]
    tally = collections.Counter(answers)
    line = stored.tree_line(tally)
    print(line)
    counts.stop_if_wrong(0, ('cases', len(cases), CASES), *(('answers %d' % n, tally[n], 1) for n in range(8)))
    stored.write_cases('trees', [(*case, bytes([answer])) for case, answer in zip(cases, answers)], line)


if __name__ == '__main__':
    sys.exit(__doc__) if len(sys.argv) != 1 else main()
