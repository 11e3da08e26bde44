#!/usr/bin/env python3
"""Writes trees, texts and rows with apostrophes, characters of two to four bytes and ill-formed bytes, for crates/replay: data/text_trees,
data/text_lowerings and data/text_readings and their lines of stdout.

usage: python3 tools/answers/make_text_answers.py ORACLE     ORACLE: the program that ../shared/oracle/build.py makes

Which bytes are well-formed the Rust says (its String::from_utf8: a tree that it cannot decode). A text is the Rust's, with each Str in it as
SQLite reads it: the Rust is asked with a character of its own in the place of each Str's value, and SQLite for the value of each literal; where no
Str has an apostrophe the Rust is also asked for the tree as it is. A truth is SQLite's, on TEXT columns. The model must answer the same.

Writes nothing and exits with 1 if one of these differs, or if there are fewer cases than CASES below."""
import collections
import os
import random
import sys

sys.path.insert(0, os.path.join(os.path.dirname(os.path.abspath(__file__)), '..'))
from answers import counts, rust, sqlite, stored
from answers.counts import shown
from answers.literals import Literals, values_of, with_texts
from generators import filters, text_cases, texts
from model import calls, lowering
from model.limits import FLAGS, PLANNER, STR
from model.records import SHEET_SETTINGS, encode, settings_record, string
from model.refusals import BUFFER, FIELD, TEXT_SIZE

RANDOM, SEED = 6000, 7
SAMPLE, SMALL = 1200, 800    # of the random trees those that are stored, and how long their texts are at most
CASES = {'trees': 3200, 'lowerings': 1600, 'readings': 8000}


# ---- trees


def by_the_rust(oracle):
    """Str records and their answers."""
    values = text_cases.str_values()
    made = [(text_cases.SETTINGS, string(value, k % (FLAGS + 1))) for k, value in enumerate(values)]
    for value, case, (letter, _) in zip(values, made, rust.answers_of(oracle, made)):
        right = letter == 'T' and len(value) <= STR and not set(value) & {*range(0x20), 0x7f}
        yield *case, 0 if right else FIELD


def trees(oracle):
    cases = [*by_the_rust(oracle), *((text_cases.SETTINGS, tree, answer) for tree, answer in text_cases.in_trees())]
    differ = shown('tree, answer, the model', [(tree[:60], answer, calls.check(settings, tree)) for settings, tree, answer in cases
                                               if calls.check(settings, tree) != answer])
    return cases, differ


# ---- lowerings


def expected(oracle, cases):
    """The texts of settings and trees, and how many differ: the Rust's with SQLite's literals, and the Rust's own where no value has an
    apostrophe, against the model's."""
    literals = Literals()
    bare = [(settings, with_texts(tree, literals.stand_in)) for settings, tree in cases]
    differ = shown('SQLite reads another value', [(value,) for value in literals.wrong()])
    as_they_are = rust.answers(oracle, cases)
    out = []
    for (settings, tree), (letter, text), own in zip(cases, rust.answers(oracle, bare), as_they_are):
        right = literals.put(text.decode()).encode()
        plain = not any("'" in value for value in values_of(tree))
        if letter != 'T' or right != lowering.text(settings, tree).encode() or plain and own != ('T', right):
            differ += shown('Rust, model', [(letter, right[:200], lowering.text(settings, tree)[:200])])
        out.append((settings, tree, right))
    print('texts: %d trees, %d values read back by SQLite' % (len(out), len(literals.stand_ins)))
    return out, differ


def at_the_limits():
    """Trees with rooms and answers: limits count bytes as they are written."""
    marks, full = ('str', 0, "'" * STR), ('array', [('str', 3, "'" * STR)] * 7 + [('str', 3, "'" * 4031 + 'x')])
    over = ('array', [('str', 3, "'" * STR)] * 7 + [('str', 3, "'" * 4032)])
    for tree in (marks, full, ('str', 0, 'é' * (STR // 2)), ('str', 1, '🔩' * (STR // 4)), ('str', 0, "é'" * (STR // 3))):
        text = lowering.text(SHEET_SETTINGS, tree).encode()
        yield tree, len(text), text
        yield tree, len(text) - 1, BUFFER
    yield over, PLANNER.text + 1, TEXT_SIZE
    yield over, 0, TEXT_SIZE


def lowerings(oracle):
    leaves = [(SHEET_SETTINGS, ('str', flags, value.decode())) for value in texts.VALUES for flags in range(FLAGS + 1)]
    limits = list(at_the_limits())
    many = [*leaves, *((SHEET_SETTINGS, tree) for tree, _, _ in limits), *filters.accepted(RANDOM, SEED, texts.random_text)]
    agree, differ = expected(oracle, many)
    rest = [one for one in agree[len(leaves) + len(limits):] if values_of(one[1]) and len(one[2]) <= SMALL]
    picked = agree[:len(leaves)] + random.Random(SEED).sample(rest, SAMPLE)
    cases = []
    for k, (settings, tree, text) in enumerate(picked):
        cases.append((settings, tree, len(text) + k % 7, text))
        if k % 10 == 0:
            cases.append((settings, tree, len(text) - 1, BUFFER))
    cases += [(SHEET_SETTINGS, *one) for one in limits]
    records = [(settings_record(settings), encode(tree), room, answer) for settings, tree, room, answer in cases]
    return records, differ + shown('answer, the model', [(case[3], calls.to_sql(*case[:3])) for case in records if calls.to_sql(*case[:3]) != case[3]])


# ---- readings


def readings():
    asked = [case for group in (text_cases.pairs, text_cases.joined, text_cases.marks, text_cases.apostrophes) for case in group()]
    said = [sqlite.truth(*case) for case in asked]
    own = [calls.read(*case) for case in asked]
    differ = shown('text, row, SQLite, the model', [(*case, other, mine) for case, other, mine in zip(asked, said, own)
                                                    if other is not None and isinstance(mine, str) and other != mine])
    untaken = [case for case, other, mine in zip(asked, said, own) if other is None and isinstance(mine, str)]
    differ += shown('SQLite does not take the text', untaken)
    told = [case for group in (text_cases.wrong, text_cases.sizes) for case in group()]
    differ += shown('text, row, answer, the model', [(text[:60], row[:60], answer, calls.read(text, row)) for text, row, answer in told
                                                     if calls.read(text, row) != answer])
    print('readings: %d asked of SQLite, %d the same truth, %d taken by SQLite and refused here' % (
        len(asked), sum(a == b for a, b in zip(said, own)), sum(a is not None and isinstance(b, int) for a, b in zip(said, own))))
    return [(*case, mine) for case, mine in zip(asked, own)] + told, differ


def main(oracle):
    (in_trees, a), (lowered, b), (read, c) = trees(oracle), lowerings(oracle), readings()
    found = {'trees': len(in_trees), 'lowerings': len(lowered), 'readings': len(read)}
    print(', '.join('%d %s' % (n, what) for what, n in found.items()))
    counts.stop_if_wrong(a + b + c, *((what, found[what], due) for what, due in CASES.items()))
    stored.write_cases('text_trees', [(s, t, bytes([n])) for s, t, n in in_trees], stored.tree_line(collections.Counter(n for *_, n in in_trees)))
    tally = collections.Counter(answer if isinstance(answer, int) else 0 for *_, answer in lowered)
    stored.write_cases('text_lowerings', [stored.lowering_case(*case) for case in lowered], stored.lowering_line(tally))
    cases = [stored.reading_case(*case) for case in read]
    stored.write_cases('text_readings', cases, stored.reading_line(collections.Counter(n[0] for *_, n in cases)))


if __name__ == '__main__':
    sys.exit(__doc__) if len(sys.argv) != 2 else main(os.path.abspath(sys.argv[1]))
