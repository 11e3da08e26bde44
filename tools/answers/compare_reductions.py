#!/usr/bin/env python3
"""Compares the Rust's texts of reduced trees, by `E::reduce` and then `to_sql_impl`, with the model's: each rule over operands of every sort and in every
place, and random trees, half of them of literals, Null and Bool, half as compare_lowerings.py has them. Where the model refuses with 14 the Rust may
answer anything; where the model reduces, the Rust must write the model's text. A zero that has become -0 under Minus is the one exception: there the Rust
must write the model's text with -0 in its place.

usage: python3 tools/answers/compare_reductions.py ORACLE [COUNT] [SEED]
       ORACLE: the program that ../shared/oracle/build.py makes; COUNT: of random trees, 20,000; SEED: 1

Exits with 1 if a text differs, if fewer than the corners and 99 of 100 of COUNT were asked (those past a limit are left out), or if one of the answers
that are counted did not occur."""
import collections
import os
import random
import sys

sys.path.insert(0, os.path.join(os.path.dirname(os.path.abspath(__file__)), '..'))
from answers import counts, rust
from generators import filters, reductions
from model import lowering, reduction
from model.limits import PLANNER
from model.records import SHEET_SETTINGS, encode, levels
from model.refusals import Refused

MARK = 727272727272727    # stands for a zero while its sign is looked for; no generator makes it
LETTERS = {'T': 'a text', 'E': 'an error', 'P': 'a panic'}


def corners():
    """Each rule over every sort of operand, and in every place; each tree once."""
    made = (tree for group in (reductions.monadics, reductions.dyadics, reductions.instants, reductions.logic, reductions.places, reductions.deep)
            for tree in group())
    return list({encode(tree): tree for tree in made}.values())


def random_trees(count, seed):
    """Settings and trees, but for those past a limit."""
    maker = reductions.Maker(random.Random(seed))
    made = ((maker.settings(), maker.tree(maker.r.choice([1, 2, 2, 3, 3, 4, 5, 6]))) for _ in range(count // 2))
    yield from ((settings, tree) for settings, tree in made if len(encode(tree)) <= PLANNER.tree and levels(tree) <= PLANNER.depth)
    yield from filters.accepted(count - count // 2, seed)


def marked(tree):
    """The tree with MARK in the place of each zero."""
    if tree[0] == 'num':
        return ('num', tree[1] or MARK, tree[2] if tree[1] else 0)
    return tuple(marked(part) if isinstance(part, tuple) else list(map(marked, part)) if isinstance(part, list) else part for part in tree)


def texts(settings, tree):
    """The model's text of the reduced tree, and the same with the sign that the Rust's zeros have; or None."""
    try:
        own, signed = (lowering.text(settings, reduction.reduced(one)) for one in (tree, marked(tree)))
    except Refused:
        return None
    return own.encode(), signed.replace(str(MARK), '0').encode()


def compared(oracle, cases):
    """Settings, tree and the model's text where it is the Rust's or differs in the sign of zeros alone; and a count of what was heard."""
    agree, tally, differ = [], collections.Counter(), []
    for (settings, tree), (letter, text) in zip(cases, rust.answers(oracle, cases, 'reduce')):
        found = texts(settings, tree)
        if found is None:
            tally['14, and the Rust has ' + LETTERS[letter]] += 1
        elif (letter, text) == ('T', found[1]):
            agree.append((settings, tree, found[0]))
            tally['equal texts' if found[0] == found[1] else 'texts equal but for -0'] += 1
        else:
            differ.append((str(tree)[:400], 'Rust', letter, text[:200], 'model', found[1][:200]))
    return agree, tally, counts.shown('reduced', differ)


def random_and_corners(oracle, count, seed):
    """As `compared`; stops on a disagreement and on a count that is short."""
    first, some = corners(), list(random_trees(count, seed))
    agree, tally, differ = compared(oracle, [*((SHEET_SETTINGS, tree) for tree in first), *some])
    changed = sum(reduction.reduced(tree) != tree for _, tree, _ in agree)
    print('%d trees, %d corners among them: %d changed by reducing, %s; %d differ'
          % (len(first) + len(some), len(first), changed, ', '.join('%d %s' % (n, what) for what, n in sorted(tally.items())), differ))
    counts.stop_if_wrong(differ, ('random trees', len(some), count * 99 // 100), ('trees changed', changed, count // 5),
                         *((what, tally[what], 1) for what in ('equal texts', 'texts equal but for -0', '14, and the Rust has a text')))
    return agree


if __name__ == '__main__':
    words = sys.argv[1:]
    if len(words) not in (1, 2, 3) or not all(word.isdecimal() for word in words[1:]):
        sys.exit(__doc__)
    random_and_corners(os.path.abspath(words[0]), *map(int, (words[1:] + ['20000', '1'][len(words) - 1:])))
