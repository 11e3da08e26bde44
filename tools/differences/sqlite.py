#!/usr/bin/env python3
"""Runs the smallest texts of docs/DIFFERENCES.md on SQLite and prints what it makes of each.

usage: python3 tools/differences/sqlite.py

Exits with 1 if an answer is not the one that stands beside the text here, or reading has another truth of one about instants or open ends, if fewer than
172 texts were run, if other numbers of keywords are read bare, or if SQLite counts another day of the years 1 to 9999 wrong."""
import collections
import datetime
import itertools
import os
import sqlite3
import sys

sys.path.insert(0, os.path.join(os.path.dirname(os.path.abspath(__file__)), '..'))
from answers import counts
from model import calls
from model.lowering import GEOPACKAGE, RUST, text as text_of
from model.names import KEYWORDS
from model.records import SHEET_SETTINGS, row as row_of

TEXTS = 172
ANDS_TAKEN = 28
BARE = {'syntax error': 59, 1: 84, 0: 3, None: 1}    # of SQLite's 147 keywords
CLOCK = ['CURRENT_DATE', 'CURRENT_TIME', 'CURRENT_TIMESTAMP']


def fold(a, b):
    return (a.lower() > b.lower()) - (a.lower() < b.lower())


def ask(expression, row, kind, form='SELECT (%s)%s'):
    base = sqlite3.connect(':memory:')
    base.create_collation('NC', fold)
    source = ''
    if row:
        base.execute('CREATE TABLE t (%s)' % ', '.join('"%s" %s' % (name, kind) for name in row))
        base.execute('INSERT INTO t VALUES (%s)' % ','.join('?' * len(row)), list(row.values()))
        source = ' FROM t'
    try:
        return base.execute(form % (expression, source)).fetchone()[0]
    except sqlite3.Error as error:
        return 'error: %s' % error
    finally:
        base.close()


CASES = [    # a text, a row, the declared type of its columns, and SQLite's answer
    ("a BETWEEN 0 AND (b = c)", {"a": 5, "b": 9, "c": 1}, "NUMERIC", 0),
    ("a BETWEEN 0 AND b = c", {"a": 5, "b": 9, "c": 1}, "NUMERIC", 1),
    ("(a = b) COLLATE NC", {"a": "x", "b": "X"}, "TEXT", 0),
    ("a = b COLLATE NC", {"a": "x", "b": "X"}, "TEXT", 1),
    ("a > (b > c)", {"a": 3, "b": 2, "c": 1}, "NUMERIC", 1),
    ("a > b > c", {"a": 3, "b": 2, "c": 1}, "NUMERIC", 0),
    ("(NOT a) > b", {"a": 1, "b": 2}, "NUMERIC", 0),
    ("NOT a > b", {"a": 1, "b": 2}, "NUMERIC", 1),
    ("a COLLATE NC COLLATE BINARY = 'X'", {"a": "x"}, "TEXT", 0),
    ("a COLLATE BINARY COLLATE NC = 'X'", {"a": "x"}, "TEXT", 1),
    ("'x' IN ('X' COLLATE NC)", {}, "", 1),
    ("'x' IN ('X' COLLATE NC, 'y')", {}, "", 0),
    ("a COLLATE BINARY = 'X' COLLATE NC", {"a": "x"}, "TEXT", 0),
    ("a LIKE ('X')", {"a": "x"}, "TEXT", 1),
    ("a COLLATE BINARY LIKE ('X')", {"a": "x"}, "TEXT", 1),
    (r"a LIKE ('10\%')", {"a": r"10\5"}, "TEXT", 1),
    ("2 ^ 3", {}, "", 'error: unrecognized token: "^"'),
    ("7 div 2", {}, "", 'error: near "div": syntax error'),
    ("(1, 2) @> (1, 2)", {}, "", 'error: unrecognized token: "@"'),
    ("(1, 2) <@ (1, 2)", {}, "", 'error: unrecognized token: "@"'),
    ("(1, 2) && (1, 2)", {}, "", 'error: near "&": syntax error'),
    ("() = ()", {}, "", 'error: near ")": syntax error'),
    ("7 / 2", {}, "", 3),
    ("(1, 2) = (2, 1)", {}, "", 0),
    ("a IN ((b, 2))", {"a": 1, "b": 1}, "NUMERIC", 'error: row value misused'),
    ("a IN b", {"a": 1, "b": 1}, "NUMERIC", 'error: no such table: b'),
    ('NOT ("b" IS NOT NULL AND (a > c))', {"a": "2", "b": None, "c": "1"}, "TEXT", 1),
    ('"zz" IS NOT NULL', {"a": "1"}, "TEXT", 1),
    ("A = a", {"a": "1"}, "TEXT", 1),
    ("rowid", {"a": "1"}, "TEXT", 1),
    ("'2024-01-01' < '-2021-01-01'", {}, "", 0),
    ("'2024-01-01' < '2024-01-01T00:00:00'", {}, "", 1),
    ("'2024-01-01T00:00:00' = '2024-01-01T00:00:00.000Z'", {}, "", 0),
    ("'O''Ring'", {}, "", "O'Ring"),
    ("'O'Ring'", {}, "", 'error: near "Ring": syntax error'),
    ("''''", {}, "", "'"),
    ("'''", {}, "", "error: unrecognized token: \"''')\""),
    ("''''''", {}, "", "''"),
    ("'it's' COLLATE NC", {}, "", 'error: near "s": syntax error'),
    ("a COLLATE NC LIKE ('É' COLLATE NC)", {"a": "é"}, "TEXT", 0),
    ("a COLLATE NC = 'É'", {"a": "é"}, "TEXT", 1),
    ("'Flügel' = 'Flu\u0308gel'", {}, "", 0),
    ("'z' < 'é' AND '\uffff' < '\U00010000'", {}, "", 1),
    ("CAST(X'E9' AS TEXT) > 'z'", {}, "", 1),
    ("a = 'x\t'", {"a": "x\t"}, "TEXT", 1),
    ("date('0300-03-01', '+0 days')", {}, "", '0300-02-29'),
    ("date('0300-02-28', '+2 days')", {}, "", '0300-03-02'),
    ("date('2023-02-31')", {}, "", '2023-02-31'),
    ("typeof(a)", {"a": "2024-02-29T12:00:00.000Z"}, "DATETIME", 'text'),
    ("typeof(a)", {"a": "2024-02-29"}, "DATETIME", 'text'),
    ("typeof(a)", {"a": "2024"}, "DATETIME", 'integer'),
    ("a < '0001-01-01T00:00:00.000Z'", {"a": "2024"}, "DATETIME", 1),
    ("a > 'A'", {"a": "Monday"}, "TEXT", 1),
    ("a > 'A'", {"a": "9999-12-31T23:59:59.999Z"}, "DATETIME", 0),
]
NOON, MIDNIGHT, DAY = ('timestamp', 2024, 2, 29, 12, 0, 0), ('timestamp', 2024, 2, 29, 0, 0, 0), ('date', 2024, 2, 29)
INSTANTS = [    # a value, a written instant, and by each writing how the value lies to it: -1 below, 0 equal, 1 above
    ('2024-02-29T12:00:00.000Z', NOON, 1, 0), ('2024-02-29T12:00:00.001Z', NOON, 1, 1), ('2024-02-29T12:00:00.999Z', NOON, 1, 1),
    ('2024-02-29T11:59:59.999Z', NOON, -1, -1), ('2024-02-29T12:00:01.000Z', NOON, 1, 1), ('2024-02-29T12:00:00', NOON, 0, -1),
    ('2024-02-29T12:00:00Z', NOON, 1, 1), ('2024-02-29T12:00:00.000000Z', NOON, 1, -1), ('2024-02-29 12:00:00', NOON, -1, -1),
    ('2024-02-29 23:59:59', NOON, -1, -1), ('2024-02-29', MIDNIGHT, -1, -1), ('2024-02-29T00:00:00.000Z', MIDNIGHT, 1, 0),
    ('2024-02-29T00:00:00', DAY, 1, 1), ('2024-02-29T00:00:00.000Z', DAY, 1, 1), ('2024-02-29', DAY, 0, 0)]
A, B, OPEN = ('id', 'a'), ('id', 'b'), ('unbounded',)
SINCE_A, UNTIL_B, ALWAYS = (('interval', *ends) for ends in ((A, OPEN), (OPEN, B), (OPEN, OPEN)))
OPEN_ENDS = [    # a filter, and its truth by each writing on STAY
    (('dyadic', 'TIntersects', SINCE_A, B), 0, 1), (('dyadic', 'TDisjoint', SINCE_A, B), 1, 0), (('dyadic', 'TAfter', B, SINCE_A), 1, 0),
    (('dyadic', 'TBefore', SINCE_A, B), 1, 0), (('dyadic', 'TMeets', SINCE_A, UNTIL_B), 1, 0), (('dyadic', 'TFinishes', SINCE_A, ALWAYS), 1, 1),
    (('dyadic', 'TContains', SINCE_A, ('interval', B, B)), 0, 1), (('dyadic', 'TEquals', SINCE_A, SINCE_A), 1, 1), (('dyadic', 'TAfter', A, ALWAYS), 1, 0),
    (('dyadic', 'TBefore', A, ALWAYS), 0, 0), (('dyadic', 'TAfter', A, OPEN), 1, 1), (('dyadic', 'TEquals', OPEN, OPEN), 1, 1),
    (('dyadic', 'TEquals', OPEN, ALWAYS), 1, 0)]
STAY = {'a': '2024-02-29T12:00:00.000Z', 'b': '2024-02-29T12:30:45.500Z'}


def ands_over_disjoint(count):
    """So many Ands over TDisjoint of intervals, each the right operand of the next."""
    names = [('id', name) for name in 'abcd']
    tree = ('dyadic', 'TDisjoint', ('interval', *names[:2]), ('interval', *names[2:]))
    for _ in range(count):
        tree = ('dyadic', 'And', ('bool', 1), tree)
    return text_of(SHEET_SETTINGS, tree)


def by_both():
    """Filters with a row, and their truths by each writing: comparisons of instants, and filters with open ends."""
    for (value, tree, *lies), (k, operator) in itertools.product(INSTANTS, enumerate(('Lt', 'Eq', 'Gt'), -1)):
        yield ('dyadic', operator, A, tree), {'a': value}, [due == k for due in lies]
    yield from ((tree, STAY, list(map(bool, truths))) for tree, *truths in OPEN_ENDS)


def instants():
    """Each row against each writing's text on DATETIME and TEXT columns, and by the model's reading: how many texts were run, how many differ."""
    run = differ = 0
    for tree, row, truths in by_both():
        for writing, right in zip((RUST, GEOPACKAGE), truths):
            text = text_of(SHEET_SETTINGS, tree, writing)
            said = [bool(ask(text, row, kind)) for kind in ('DATETIME', 'TEXT')]
            said.append(calls.read(text.encode(), row_of([(name.encode(), value.encode()) for name, value in row.items()])) == 'true')
            run, differ = run + 1, differ + (said != [right] * 3)
            if said != [right] * 3:
                print('differs: %s of %s: %s, and not %s' % (text, row, said, right))
    print('instants and open ends: %d texts on DATETIME and TEXT columns, %d differ' % (run, differ))
    return run, differ


def of_keyword(word):
    """What SQLite makes of a keyword that stands bare and in quotes where a column has that name. No brackets stand around it, as in a text: after
    an opening bracket SQLite takes WITH for the beginning of a query."""
    row = {word: 'x'}
    bare, inside = (ask("%s = 'x'" % name, row, 'TEXT', 'SELECT %s%s') for name in (word, '"%s"' % word))
    return 'syntax error' if str(bare).endswith('syntax error') else bare, inside


def keywords():
    """How many are read bare as what; the three that are the clock. Exits with 1 if the counts are others."""
    words = [word.decode() for word in sorted(KEYWORDS)]
    found = [of_keyword(word) for word in words]
    tally = collections.Counter(bare for bare, _ in found)
    clock = [word for word, (bare, _) in zip(words, found) if bare == 0]
    print('%d keywords bare: %d a syntax error, %d the column, %d another value (%s), %d unknown; in quotes the column: %d' % (
        len(words), tally['syntax error'], tally[1], tally[0], ' '.join(clock), tally[None], sum(inside == 1 for _, inside in found)))
    if (tally, clock) != (BARE, CLOCK) or any(inside != 1 for _, inside in found):
        sys.exit('these are not the counts of docs/DIFFERENCES.md')


ORDERS = {'UTF-8': (0, 1), 'UTF-16le': (1, 0), 'UTF-16be': (0, 0)}    # by how the file holds its texts: a < 'z' for a Ā, U+FFFF < U+10000


def orders():
    """How texts are ordered in files of each encoding. Exits with 1 if it is another."""
    found = {}
    for encoding in ORDERS:
        base = sqlite3.connect(':memory:')
        base.execute("PRAGMA encoding = '%s'" % encoding)
        base.execute("CREATE TABLE t AS SELECT 'Ā' AS a")
        found[encoding] = base.execute("SELECT a < 'z', '\uffff' < '\U00010000' FROM t").fetchone()
        base.close()
    print('order of texts:', found)
    if found != ORDERS:
        sys.exit('these are not the orders of docs/DIFFERENCES.md')


DAYS = """WITH RECURSIVE day(n) AS (VALUES(julianday('0001-01-01')) UNION ALL SELECT n + 1 FROM day WHERE n < julianday('9999-12-31'))
          SELECT date(n) FROM day"""
MISCOUNTED = [('0300-02-29', '0300-03-01')]


def days():
    """Where its days, counted from 0001-01-01 to 9999-12-31, are not those of Python's datetime. Exits with 1 if it is elsewhere."""
    base, count, differ = sqlite3.connect(':memory:'), 0, []
    for text, in base.execute(DAYS):
        count += 1
        due = datetime.date.fromordinal(count).isoformat()
        differ += [(text, due)] if text != due else []
    base.close()
    print('%d days, counted otherwise than by Python: %s' % (count, differ))
    if (count, differ) != (datetime.date.max.toordinal(), MISCOUNTED):
        sys.exit('these are not the days of docs/DIFFERENCES.md')


def main():
    print('SQLite', sqlite3.sqlite_version)
    keywords()
    orders()
    days()
    row, (run, differ) = {'a': '1', 'b': '2', 'c': '3', 'd': '4'}, instants()
    deep = [(ands_over_disjoint(count), row, 'TEXT') for count in (ANDS_TAKEN, ANDS_TAKEN + 1)]
    cases = CASES + [(*deep[0], 1), (*deep[1], 'error: parser stack overflow')]
    for expression, row, kind, due in cases:
        said = ask(expression, row, kind)
        print('%-52s %-30s %s' % (expression if len(expression) < 100 else expression[:80] + '..', row or '', said))
        if said != due:
            differ += 1
            print('differs: %r, and not %r' % (said, due))
    print('%d texts, %d differ' % (len(cases) + run, differ))
    counts.stop_if_wrong(differ, ('texts', len(cases) + run, TEXTS))


if __name__ == '__main__':
    sys.exit(__doc__) if len(sys.argv) != 1 else main()
