#!/usr/bin/env python3
"""Compares the model's truths of SQL texts on rows with SQLite's, wherever SQLite takes the text (Python's sqlite3, TEXT columns): texts at the
edges of every rule, and 6,000 random ones.

usage: python3 tools/answers/compare_readings.py

Exits with 1 if a text that both take has another truth, if there are fewer than 6,355 texts, or if fewer than 3,256 have the same truth in both."""
import collections
import os
import sqlite3
import sys

sys.path.insert(0, os.path.join(os.path.dirname(os.path.abspath(__file__)), '..'))
from answers import counts, sqlite
from generators import reading_edges, readings
from model import calls

RANDOM, SEED = 6000, 20240229
TEXTS, SAME = 6355, 3256
ASKED_BELOW = 20000    # bytes: SQLite's parser ends long before
SHOWN = 20


def compared():
    """The texts at the edges and the random ones, each as (text, row, answer); stops on a disagreement and on a count that is short."""
    edges, random = ([(*case, calls.read(*case)) for case in cases] for cases in (reading_edges.edges(), readings.random_readings(RANDOM, SEED)))
    asked = [(text, answer, sqlite.truth(text, row)) for text, row, answer in edges + random if len(text) < ASKED_BELOW]
    taken = [one for one in asked if one[2] is not None]
    same = sum(answer == said for _, answer, said in taken)
    refused = collections.Counter(answer for _, answer, _ in taken if isinstance(answer, int))
    other = [one for one in taken if isinstance(one[1], str) and one[1] != one[2]]
    print('SQLite %s: %d texts, %d taken by SQLite, %d the same truth' % (sqlite3.sqlite_version, len(edges + random), len(taken), same))
    print('answers:', ', '.join('%s %d' % pair for pair in sorted(collections.Counter(str(answer) for *_, answer in edges + random).items())))
    print('taken by SQLite and refused here:', ', '.join('%d with %d' % (count, number) for number, count in sorted(refused.items())))
    for text, answer, said in sorted(other, key=lambda one: len(one[0]))[:SHOWN]:
        print('differs:', text, 'model', answer, 'SQLite', said)
    counts.stop_if_wrong(len(other), ('texts', len(edges + random), TEXTS), ('texts of the same truth', same, SAME))
    return edges, random


if __name__ == '__main__':
    sys.exit(__doc__) if len(sys.argv) != 1 else compared()
