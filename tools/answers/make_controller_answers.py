#!/usr/bin/env python3
"""Writes trees on both sides of the controller's limits, and random ones, with its answers by both calls that write, for crates/replay:
data/controller_lowerings and data/controller_geopackage_lowerings and their lines of stdout.

usage: python3 tools/answers/make_controller_answers.py ORACLE     ORACLE: the program that ../shared/oracle/build.py makes

A text is the Rust's, put together as in make_text_answers.py, for the second call as in make_geopackage_answers.py. Of a right tree the record's bytes,
its levels and the length of that text say which refusal is due; of a wrong one the refusal was written by hand (tools/generators/caller_limits.py). The
model must answer the same at the controller's limits, and at the planner's the same or, where the controller answers 2, 4, 8 or 9, something else.

Writes nothing and exits with 1 if one of these differs, or if there are fewer cases than CASES below."""
import collections
import os
import random
import sys

sys.path.insert(0, os.path.join(os.path.dirname(os.path.abspath(__file__)), '..'))
from answers import counts, make_geopackage_answers, make_text_answers, stored
from answers.counts import shown
from generators import caller_limits, filters, stamps, texts
from model import calls
from model.limits import CONTROLLER, PLANNER
from model.lowering import GEOPACKAGE, RUST
from model.records import SHEET_SETTINGS, encode, levels, settings_record
from model.refusals import BUFFER, DEPTH, TEXT_SIZE, TREE_SIZE

RANDOM, SEED = 4000, 7
SAMPLE = {0: 300, TREE_SIZE: 30, DEPTH: 150, TEXT_SIZE: 60}    # of the random trees those that are stored, by their answer
SMALL = 1000    # bytes of a text of these
CASES = {'cases': 1277, 'texts': 559, **{'refused with %d' % n: least for n, least in enumerate((20, 52, 15, 364, 7, 10, 5, 112, 122), 1)}}
FILES = {RUST: 'controller_lowerings', GEOPACKAGE: 'controller_geopackage_lowerings'}
OWN = TREE_SIZE, DEPTH, TEXT_SIZE, BUFFER    # refusals of the controller where the planner may answer something else
SHEET = settings_record(SHEET_SETTINGS)


def due(tree, text):
    """The answer of the controller to a right tree in a buffer that is long enough, where the text is the Rust's."""
    for number, over in ((TREE_SIZE, len(encode(tree)) > CONTROLLER.tree), (DEPTH, levels(tree) > CONTROLLER.depth),
                         (TEXT_SIZE, len(text) > CONTROLLER.text)):
        if over:
            return number
    return text


def at_the_limits():
    """Settings and trees, each once."""
    made = [*((SHEET_SETTINGS, tree) for group in (caller_limits.chains, caller_limits.tree_sizes) for tree in group(CONTROLLER)),
            *caller_limits.text_sizes(CONTROLLER)]
    return list({(settings, encode(tree)): (settings, tree) for settings, tree in made}.values())


def expected(oracle, cases, writing):
    """Settings, trees and their texts, and how many differ from the model's."""
    found, differ = (make_text_answers if writing == RUST else make_geopackage_answers).expected(oracle, cases)
    return [one[:3] for one in found], differ


def picked(agree):
    """Of the random trees some of each answer."""
    groups, r = collections.defaultdict(list), random.Random(SEED)
    for one in agree:
        answer = due(*one[1:])
        if isinstance(answer, int) or len(answer) <= SMALL:
            groups[answer if isinstance(answer, int) else 0].append(one)
    return [one for answer, group in sorted(groups.items()) for one in r.sample(group, min(SAMPLE[answer], len(group)))]


def with_rooms(agree, close):
    """The cases of settings, trees and texts: with a buffer that fits or is longer, and some that are short; around the limit of a text, if asked."""
    for k, (settings, tree, text) in enumerate(agree):
        answer, n = due(tree, text), len(text)
        rooms = [n + k % 7 if isinstance(answer, bytes) else (PLANNER.text, n, CONTROLLER.text, 0)[k % 4]]
        if k % 5 == 0 and isinstance(answer, bytes):
            rooms.append(n - 1)
        if close and abs(n - CONTROLLER.text) < 2:
            rooms = {n - 1, n, PLANNER.text}
        yield from ((settings_record(settings), encode(tree), room, calls.fitted(answer, room)) for room in sorted(rooms))


def wrong():
    """Settings, trees, rooms and the refusals of what is wrong besides."""
    for group in (caller_limits.wrong_and_deep, caller_limits.wrong_and_long):
        yield from ((SHEET, tree, (0, CONTROLLER.text, PLANNER.text)[k % 3], number) for k, (tree, number) in enumerate(group(CONTROLLER)))
    yield from ((settings, tree, 100, number) for settings, tree, number in caller_limits.wrong_settings(CONTROLLER))


def parts(case, writing):
    """What the model answers at either caller's limits, where that is not as it must be."""
    *asked, room, answer = case
    own, planned, ample = (calls.to_sql(*asked, size, writing, limit) for size, limit in ((room, CONTROLLER), (room, PLANNER), (PLANNER.text, PLANNER)))
    return None if own == answer and (own in OWN or own == planned == ample) else (answer, own, planned)


def random_trees():
    """Settings and trees: as they are made, and some of them near a limit."""
    made = list(filters.accepted(RANDOM, SEED, texts.random_text, stamps.Maker))
    near = caller_limits.near(random.Random(SEED), CONTROLLER, (tree for _, tree in made[::4]))
    return [(settings, tree) for settings, tree in (*made, *((SHEET_SETTINGS, tree) for tree in near))
            if len(encode(tree)) <= PLANNER.tree and levels(tree) <= PLANNER.depth]


def main(oracle):
    limits, made = at_the_limits(), random_trees()
    for writing, name in FILES.items():
        agree, differ = expected(oracle, limits + made, writing)
        cases = [*with_rooms(agree[:len(limits)], True), *with_rooms(picked(agree[len(limits):]), False), *wrong()]
        differ += shown('answer, the model, as the planner', [found for found in (parts(case, writing) for case in cases) if found])
        tally = collections.Counter(answer if isinstance(answer, int) else 0 for *_, answer in cases)
        found = {'cases': len(cases), 'texts': tally[0], **{'refused with %d' % n: tally[n] for n in range(1, 10)}}
        print('%s: %s' % (name, ', '.join('%d %s' % (n, what) for what, n in found.items())))
        counts.stop_if_wrong(differ, *((what, found[what], must) for what, must in CASES.items()))
        stored.write_cases(name, [stored.lowering_case(*case) for case in cases], stored.lowering_line(tally))


if __name__ == '__main__':
    sys.exit(__doc__) if len(sys.argv) != 2 else main(os.path.abspath(sys.argv[1]))
