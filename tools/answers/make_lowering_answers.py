#!/usr/bin/env python3
"""Writes trees with the texts that the Rust writes, and with refusals, for crates/replay: data/lowerings and its line of stdout.

usage: python3 tools/answers/make_lowering_answers.py ORACLE     ORACLE: the program that ../shared/oracle/build.py makes

Writes nothing and exits with 1 if the Rust and the model differ on one of some 5,600 trees (as compare_lowerings.py), if the model's answer to a
stored case is another, or if there are fewer than 1,116 cases, of which 1,001 are texts."""
import collections
import os
import random
import sys

sys.path.insert(0, os.path.join(os.path.dirname(os.path.abspath(__file__)), '..'))
from answers import compare_lowerings, counts, stored
from generators.filters import SHEET_SETTINGS
from model import calls, lowering
from model.limits import PLANNER
from model.records import encode, settings_record
from model.refusals import BUFFER, FIELD, FRAME, KIND, PLACE, TEXT_SIZE

RANDOM, SEED = 4000, 2
SAMPLE, SAMPLE_SEED = 1000, 3
CASES, TEXTS = 1116, 1001
ROOM = 65536
A, B, C, D = (('id', name) for name in 'abcd')
TAKEN = [    # the Rust takes these, document 01 does not
    (('dyadic', 'IsBetween', A, ('array', [A, B, C])), PLACE), (('str', 0, 'a\tb'), FIELD), (('id', 'and'), FIELD), (('id', 'a b'), FIELD),
    (('dyadic', 'Neg', A, B), KIND), (('dyadic', 'IsNull', A, B), KIND), (('dyadic', 'IsNotNull', A, B), KIND),
    (('dyadic', 'TAfter', A, ('interval', ('interval', B, C), D)), PLACE), (('interval', A, B), PLACE), (('date', 1900, 2, 29), FIELD)]


def sampled(agree):
    """Texts in buffers that fit them or are up to six bytes longer; some also in one that is a byte short."""
    short = [one for one in agree if len(one[2]) <= PLANNER.text]
    for k, (settings, tree, text) in enumerate(random.Random(SAMPLE_SEED).sample(short, SAMPLE)):
        yield settings, tree, len(text) + k % 7, text
        if k % 10 == 0:
            yield settings, tree, len(text) - 1, BUFFER


def sized(size):
    """A tree whose text has that many bytes: three strings of 4,096 bytes, written four times, and five that fill up."""
    tree = ('array', [('str', 0, 'x' * 4096)] * 3)
    for _ in range(2):
        tree = ('dyadic', 'TEquals', tree, ('interval', A, B))
    filled = lambda n: ('dyadic', 'And', tree, ('array', [('str', 0, 'y' * 3500)] * 4 + [('str', 0, 'y' * n)]))
    return filled(size - len(lowering.text(SHEET_SETTINGS, filled(0))))


def at_the_limit(oracle):
    longest, longer = sized(PLANNER.text), sized(PLANNER.text + 1)
    agree, differ = compare_lowerings.compared(oracle, [(SHEET_SETTINGS, longest), (SHEET_SETTINGS, longer)])
    counts.stop_if_wrong(differ, *(('bytes of text', len(text), PLANNER.text) for *_, text in agree))
    yield SHEET_SETTINGS, longest, ROOM, agree[0][2]
    yield SHEET_SETTINGS, longest, PLANNER.text - 1, BUFFER
    yield SHEET_SETTINGS, longer, ROOM, TEXT_SIZE
    yield SHEET_SETTINGS, longer, PLANNER.text, TEXT_SIZE
    doubled = A
    for _ in range(30):
        doubled = ('dyadic', 'TEquals', doubled, ('interval', B, C))
    yield SHEET_SETTINGS, doubled, ROOM, TEXT_SIZE


def main(oracle):
    agree = compare_lowerings.random_and_corners(oracle, RANDOM, SEED)
    cases = [(settings_record(settings), encode(tree), room, answer) for settings, tree, room, answer in (
        *sampled(agree), *at_the_limit(oracle), *((SHEET_SETTINGS, tree, ROOM, number) for tree, number in TAKEN))]
    cases.append((settings_record(SHEET_SETTINGS), b'', ROOM, FRAME))
    differ = [case for case in cases if calls.to_sql(*case[:3]) != case[3]]
    tally = collections.Counter(answer if isinstance(answer, int) else 0 for *_, answer in cases)
    texts = tally[0]
    print('%d cases, %d of them texts, %d differ from the model' % (len(cases), texts, len(differ)))
    counts.stop_if_wrong(len(differ), ('cases', len(cases), CASES), ('texts', texts, TEXTS))
    stored.write_cases('lowerings', [stored.lowering_case(*case) for case in cases], stored.lowering_line(tally))


if __name__ == '__main__':
    sys.exit(__doc__) if len(sys.argv) != 2 else main(os.path.abspath(sys.argv[1]))
