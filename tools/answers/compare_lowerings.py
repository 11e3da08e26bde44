#!/usr/bin/env python3
"""Compares the Rust's texts of accepted trees with the model's: 1,648 corners (every temporal operator over every kind of end, and the like), and
random trees with each operator at the root. The second call's texts are compared with the Rust's of the same trees with a string in the place of each
timestamp, as a GeoPackage stores it, and 'A' in that of `..` where it is the second end of an interval.

usage: python3 tools/answers/compare_lowerings.py ORACLE [COUNT] [SEED]
       ORACLE: the program that ../shared/oracle/build.py makes; COUNT: of random trees, 20,000; SEED: 1

Exits with 1 if a text differs, if fewer than the corners and 99 of 100 of COUNT were compared (those past a limit are left out), or if fewer
than 6 monadic and 48 dyadic operators stood at a root."""
import os
import sys

sys.path.insert(0, os.path.join(os.path.dirname(os.path.abspath(__file__)), '..'))
from answers import counts, rust
from answers.literals import as_stored
from generators import filters, stamps
from model import lowering
from model.lowering import GEOPACKAGE, RUST
from model.operators import DYADIC, MONADIC

CORNERS = 1648
SHOWN = 5


def compared(oracle, cases, writing=RUST):
    """Settings, tree and text where the Rust and the model agree, and how often they do not, of which some are shown."""
    agree, differ = [], 0
    asked = cases if writing == RUST else [(settings, as_stored(tree)) for settings, tree in cases]
    for (settings, tree), (letter, text) in zip(cases, rust.answers(oracle, asked)):
        right = lowering.text(settings, tree, writing).encode()
        if (letter, text) == ('T', right):
            agree.append((settings, tree, text))
            continue
        differ += 1
        if differ <= SHOWN:
            print('differs:', tree, 'Rust', letter, text[:200], 'model', right[:200])
    return agree, differ


def random_and_corners(oracle, count, seed):
    """As `compared`; stops on a disagreement and on a count that is short."""
    cases = [*filters.corners(), *filters.accepted(count, seed)]
    agree, differ = compared(oracle, cases)
    second, others = compared(oracle, cases, GEOPACKAGE)
    roots = {tree[:2] for _, tree, _ in agree if tree[0] in ('monadic', 'dyadic')}
    print('%d trees, %d agree, %d differ, %d operators at the root, %d bytes of text'
          % (len(cases), len(agree), differ, len(roots), sum(len(text) for *_, text in agree)))
    more = [len(text) - len(first) for (*_, text), (*_, first) in zip(second, agree)]
    print('by the second call: %d agree, %d differ, %d longer than by the first, %d shorter, %d with an open end'
          % (len(second), others, sum(n > 0 for n in more), sum(n < 0 for n in more), sum(stamps.ends_open(tree) for _, tree, _ in second)))
    counts.stop_if_wrong(differ + others, ('trees', len(agree), CORNERS + count * 99 // 100),
                         ('operators at the root', len(roots), len(MONADIC) + len(DYADIC)))
    return agree


if __name__ == '__main__':
    words = sys.argv[1:]
    if len(words) not in (1, 2, 3) or not all(word.isdecimal() for word in words[1:]):
        sys.exit(__doc__)
    random_and_corners(os.path.abspath(words[0]), *map(int, (words[1:] + ['20000', '1'][len(words) - 1:])))
