#!/usr/bin/env python3
"""Writes trees with the texts of the second writing call, texts of that call on rows, and refusals, for crates/replay: data/geopackage_lowerings and
data/geopackage_readings and their lines of stdout.

usage: python3 tools/answers/make_geopackage_answers.py ORACLE     ORACLE: the program that ../shared/oracle/build.py makes

A text is the Rust's with .000Z put in after the seconds of each timestamp in it, and 'A' for each open end: the Rust is asked with a character of its own
in the place of each Str's value, and of each `..` that is the second end of an interval, so that nothing else is taken for one of these. A truth is
SQLite's, on columns declared DATETIME; on rows of 24-byte values, where the filter writes no date and no NULL, and `..` as an end of an interval alone, it
is also what OGC 21-065r2 says, by Python's datetime. The model must answer the same, on intervals of every shape too, which are not stored.

Writes nothing and exits with 1 if one of these differs, or if there are fewer cases than CASES below."""
import collections
import os
import random
import sys

sys.path.insert(0, os.path.join(os.path.dirname(os.path.abspath(__file__)), '..'))
from answers import counts, instants, rust, sqlite, stored
from answers.counts import shown
from answers.literals import END, Literals, by_second_call, with_ends, with_texts
from answers.make_lowering_answers import TAKEN
from generators import filters, stamps, texts, trees
from model import calls, lowering, records
from model.limits import PLANNER
from model.lowering import GEOPACKAGE
from model.records import SHEET_SETTINGS, encode, settings_record
from model.refusals import ABSENT, BUFFER, DEPTH, FRAME, SETTINGS, TEXT_SIZE, TREE_SIZE

RANDOM, SEED = 4000, 4
SAMPLE, SMALL = 700, 500    # of the random trees those that are stored, and how long their texts are at most
ROWS, OTHERS, JOINED = 10, 3, 200    # for each predicate rows of 24-byte values, and others; filters of several predicates
OPEN_ROWS, SHAPE_ROWS = 2, 3    # rows of 24-byte values for each predicate with an open end, and for each shape
CASES = {'lowerings': 2254, 'texts': 1716, 'readings': 3115, 'by datetime': 2010, 'where the first call reads otherwise': 306, 'with an open end': 606,
         'of every shape, not stored': 4245}
SHEET = settings_record(SHEET_SETTINGS)


# ---- lowerings


def expected(oracle, cases):
    """Settings, trees, their texts and the lengths of the Rust's own; how many of these differ from the model's."""
    literals, differ, out = Literals(), 0, []
    bare = [(settings, with_texts(tree, literals.stand_in)) for settings, tree in cases]
    ended = [(settings, with_ends(tree, END)) for settings, tree in bare]
    for (settings, tree), (letter, text), (other, with_stand_ins) in zip(cases, rust.answers(oracle, bare), rust.answers(oracle, ended)):
        right, first = (literals.put(one).encode() for one in (by_second_call(with_stand_ins.decode()), text.decode()))
        own = [lowering.text(settings, tree, writing).encode() for writing in (GEOPACKAGE, lowering.RUST)]
        if letter + other != 'TT' or own != [right, first]:
            differ += shown('Rust, model', [(letter + other, right[:200], own[0][:200])])
        out.append((settings, tree, right, len(first)))
    differ += shown('SQLite reads another value', [(value,) for value in literals.wrong()])
    print('texts: %d trees, %d of them longer than by the first call, %d shorter, %d with an open end' % (
        len(out), *(sum(sign * (len(text) - first) > 0 for *_, text, first in out) for sign in (1, -1)), sum(stamps.ends_open(one[1]) for one in out)))
    return out, differ


def with_rooms(agree):
    """Buffers that fit or are up to six bytes longer; some that are a byte short, and some as long as the first call's text."""
    for k, (settings, tree, text, first) in enumerate(agree):
        yield settings, tree, len(text) + k % 7, text
        if k % 7 == 0:
            yield settings, tree, len(text) - 1, BUFFER
        if k % 7 == 3 and first < len(text):
            yield settings, tree, first, BUFFER


def at_the_limits(oracle):
    """Trees of the most timestamps that a text of 65,535 bytes holds, of which the first call's text is 53,835 bytes; and one that is refused with 8
    by this call alone."""
    fits, over, most = stamps.many(2340, 'thirteen_long'), stamps.many(2340, 'fourteen_bytes'), stamps.many(2519, 'x')
    agree, differ = expected(oracle, [(SHEET_SETTINGS, tree) for tree in (fits, over, most)])
    text = agree[0][2]
    counts.stop_if_wrong(differ + (len(text) != PLANNER.text) + any(first > PLANNER.text for *_, first in agree))
    yield from ((fits, len(text), text), (fits, len(text) - 1, BUFFER), (fits, agree[0][3], BUFFER))
    yield from ((over, PLANNER.text + 1, TEXT_SIZE), (over, agree[1][3], TEXT_SIZE), (most, PLANNER.text + 1, TEXT_SIZE), (most, 0, TEXT_SIZE))


def at_the_limit_of_ends(oracle):
    """A tree of open ends whose text has 65,535 bytes, and one of a byte more; both are refused with 8 by the first call."""
    fits, over = stamps.doubled(21), stamps.doubled(22)
    agree, differ = expected(oracle, [(SHEET_SETTINGS, tree) for tree in (fits, over)])
    text = agree[0][2]
    counts.stop_if_wrong(differ + (len(text) != PLANNER.text) + any(first <= PLANNER.text for *_, first in agree))
    yield from ((fits, len(text), text), (fits, len(text) - 1, BUFFER), (over, PLANNER.text + 1, TEXT_SIZE), (over, 0, TEXT_SIZE))


def refused():
    """Records with the numbers of their refusals, which are those of the first call."""
    yield from ((SHEET, encode(tree), number) for tree, number in TAKEN)
    stamp, deep = encode(stamps.STAMP), encode(stamps.STAMP)
    for _ in range(PLANNER.depth):
        deep = records.array(deep)
    yield SHEET[:-1], stamp, SETTINGS
    yield from ((SHEET, *one) for one in ((bytes(PLANNER.tree + 1), TREE_SIZE), (b'', FRAME), (stamp + b'\0', FRAME), (deep, DEPTH)))
    for tree in trees.dates():
        if (number := calls.check(SHEET, tree)) and tree[4] == 6:
            yield SHEET, tree, number


def lowerings(oracle):
    corners = [(SHEET_SETTINGS, tree) for tree in (*stamps.corners(), *stamps.open_corners())]
    made = list(filters.accepted(RANDOM, SEED, texts.random_text, stamps.Maker))
    agree, differ = expected(oracle, corners + made)
    rest = [one for one in agree[len(corners):] if (stamps.holds(one[1], 'timestamp') or stamps.ends_open(one[1])) and len(one[2]) <= SMALL]
    picked = agree[:len(corners)] + random.Random(SEED).sample(rest, SAMPLE)
    cases = [*with_rooms(picked), *((SHEET_SETTINGS, *one) for one in (*at_the_limits(oracle), *at_the_limit_of_ends(oracle)))]
    found = [(settings_record(settings), encode(tree), room, answer) for settings, tree, room, answer in cases]
    found += [(settings, tree, PLANNER.text, number) for settings, tree, number in refused()]
    return found, differ + shown('answer, the model', [(case[3], calls.to_geopackage_sql(*case[:3])) for case in found
                                                       if calls.to_geopackage_sql(*case[:3]) != case[3]])


# ---- readings


def asked(r):
    """Filters with rows; and whether OGC 21-065r2 is asked too."""
    for tree in stamps.predicates():
        yield from ((tree, stamps.cells(r, stamps.VALUES), True) for _ in range(ROWS))
        yield from ((tree, stamps.cells(r, values, .2), False) for values in (stamps.VALUES, *[stamps.MIXED] * (OTHERS - 1)))
    for tree in stamps.open_ended():
        yield from ((tree, stamps.cells(r, stamps.VALUES), True) for _ in range(OPEN_ROWS))
        yield tree, stamps.cells(r, stamps.MIXED, .2), False
    for tree in stamps.outside():
        yield from ((tree, stamps.cells(r, values, .1), False) for values in (stamps.VALUES, stamps.MIXED))
    for tree in stamps.joined(r, JOINED):
        yield tree, stamps.cells(r, stamps.VALUES), True
        yield tree, stamps.cells(r, stamps.MIXED, .2), False


def by_datetime(tree, cells):
    return 'true' if instants.truth(tree, {name.decode(): value.decode() for name, value in cells}) else 'false'


def compared(asked_of, what):
    """Texts on rows with their answers; of how many 21-065r2 is asked, and the like; how many differ."""
    cases, tally, differ = [], collections.Counter(), 0
    for tree, cells, in_time in asked_of:
        text, first = (lowering.text(SHEET_SETTINGS, tree, writing).encode() for writing in (GEOPACKAGE, lowering.RUST))
        row = records.row(cells)
        own, said = calls.read(text, row), sqlite.truth(text, row, 'DATETIME')
        if own != said or in_time and own != by_datetime(tree, cells):
            differ += shown('text, row, SQLite, the model', [(text, cells, said, own)])
        tally['by datetime'] += in_time
        tally['where the first call reads otherwise'] += calls.read(first, row) != own
        tally['with an open end'] += stamps.ends_open(tree)
        cases.append((text, row, own))
    print('%s: %d asked of SQLite on DATETIME columns, %s' % (what, len(cases), ', '.join('%d %s' % (n, word) for word, n in tally.items())))
    return cases, tally, differ


def readings():
    r = random.Random(SEED)
    cases, tally, differ = compared(asked(r), 'readings')
    shaped, _, others = compared(((tree, stamps.cells(r, stamps.VALUES), True) for tree in stamps.shapes() for _ in range(SHAPE_ROWS)), 'of every shape')
    tally['of every shape, not stored'] = len(shaped)
    without = records.row([(b'b', stamps.VALUES[0])])
    return cases + [(text, without, ABSENT) for text, *_ in cases[::50] if b'a' in text.split()], tally, differ + others


def main(oracle):
    (lowered, a), (read, tally, b) = lowerings(oracle), readings()
    answers = collections.Counter(answer if isinstance(answer, int) else 0 for *_, answer in lowered)
    found = {'lowerings': len(lowered), 'texts': answers[0], 'readings': len(read), **tally}
    print(', '.join('%d %s' % (n, what) for what, n in found.items()))
    counts.stop_if_wrong(a + b, *((what, found[what], due) for what, due in CASES.items()))
    stored.write_cases('geopackage_lowerings', [stored.lowering_case(*case) for case in lowered], stored.lowering_line(answers))
    cases = [stored.reading_case(*case) for case in read]
    stored.write_cases('geopackage_readings', cases, stored.reading_line(collections.Counter(n[0] for *_, n in cases)))


if __name__ == '__main__':
    sys.exit(__doc__) if len(sys.argv) != 2 else main(os.path.abspath(sys.argv[1]))
