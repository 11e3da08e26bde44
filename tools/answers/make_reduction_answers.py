#!/usr/bin/env python3
"""Writes trees with what they are reduced to, or with the refusal, for crates/replay_reductions: data/reductions and the line of stdout.

usage: python3 tools/answers/make_reduction_answers.py ORACLE     ORACLE: the program that ../shared/oracle/build.py makes

A reduced tree is the model's, and its text that of `E::reduce` and `to_sql_impl`, but for -0 (compare_reductions.py); a wrong tree's refusal was written by
hand (tools/generators/reductions.py), and the model must answer it too.

Writes nothing and exits with 1 if the Rust and the model differ on one of some 26,700 trees, if a reduced tree is reduced to something else or is longer,
or if there are fewer cases than CASES below."""
import collections
import os
import random
import sys

sys.path.insert(0, os.path.join(os.path.dirname(os.path.abspath(__file__)), '..'))
from answers import compare_reductions, counts, stored
from answers.counts import shown
from generators import reductions, texts
from model import calls, reduction
from model.limits import PLANNER
from model.records import SHEET_SETTINGS, encode, levels
from model.refusals import CONSTANT_OPERANDS

RANDOM, SEED = 4000, 8
SAMPLE = 400    # of the random trees that reducing changes
SMALL = 300    # bytes of these
CASES = {'cases': 4900, 'trees': 4100, **{'refused with %d' % n: least for n, least in ((2, 1), (3, 12), (4, 2), (5, 10), (6, 10), (7, 15), (14, 450))}}


def corners():
    """Each rule over sorts of operands and in each place; trees of each size, the longest and the deepest."""
    groups = (reductions.monadics(), reductions.few_dyadics(), reductions.instants(reductions.NEIGHBOURS), reductions.logic(), reductions.places(),
              reductions.deep(), reductions.sizes(), reductions.long())
    return [tree for group in groups for tree in group]


def sampled(agree):
    """Of the random trees some that change; and some with strings of any characters."""
    changed = [tree for _, tree, _ in agree if reduction.reduced(tree) != tree and len(encode(tree)) <= SMALL]
    yield from random.Random(SEED).sample(changed, SAMPLE)
    maker = reductions.Maker(random.Random(SEED), texts.random_text)
    for _ in range(SAMPLE // 2):
        tree = maker.tree(4)
        if len(encode(tree)) <= SMALL and levels(tree) <= PLANNER.depth:
            yield tree


def settles(tree, answer):
    """Whether the answer is a refusal, or no longer than its tree and reduced to itself."""
    return isinstance(answer, int) or len(answer) <= len(tree) and calls.heard(calls.reduced, answer) == answer


def main(oracle):
    agree = compare_reductions.random_and_corners(oracle, RANDOM, SEED)
    first = corners()
    _, _, differ = compare_reductions.compared(oracle, [(SHEET_SETTINGS, tree) for tree in first])
    trees = dict.fromkeys(map(encode, (*first, *sampled(agree))))
    cases = [(tree, calls.heard(calls.reduced, tree)) for tree in trees] + [(tree, number) for number, tree in reductions.wrong()]
    wrong = [(tree[:40], answer) for tree, answer in cases if calls.heard(calls.reduced, tree) != answer or not settles(tree, answer)]
    differ += shown('answer, the model', wrong)
    tally = collections.Counter(answer if isinstance(answer, int) else 0 for _, answer in cases)
    found = {'cases': len(cases), 'trees': tally[0], **{'refused with %d' % n: tally[n] for n in (*range(2, 8), CONSTANT_OPERANDS)}}
    print('reductions: %s' % ', '.join('%d %s' % (n, what) for what, n in found.items()))
    counts.stop_if_wrong(differ, *((what, found[what], must) for what, must in CASES.items()))
    stored.write_cases('reductions', [stored.reduction_case(*case) for case in cases], stored.reduction_line(tally))


if __name__ == '__main__':
    sys.exit(__doc__) if len(sys.argv) != 2 else main(os.path.abspath(sys.argv[1]))
