"""Holds the proved reader's answer for every row of a table against what SQLite makes of the same text."""
from . import proved, records
from .errors import Disagreement

WORDS = {1: 'true', 0: 'false', None: 'unknown'}


def check(package, table, sql):
    """How many rows have each answer; Disagreement on the first row where the reader and SQLite part. The table's first column is its key."""
    columns = package.columns(table)
    rows = package.select(table, 'TRUE').fetchall()
    truths = dict(package.truths(table, columns[0], sql))
    selected = {row[0] for row in package.select(table, sql)}
    # the reader knows texts and NULL alone, so columns of numbers are left out
    cases = [(sql.encode(), records.row((n, v) for n, v in zip(columns, row) if v is None or isinstance(v, str))) for row in rows]
    counts = dict.fromkeys(WORDS.values(), 0)
    for row, answer in zip(rows, proved.run('read', cases)):
        found = WORDS.get(truths[row[0]], truths[row[0]])
        if answer != found or (answer == 'true') != (row[0] in selected):
            picks = 'selects it' if row[0] in selected else 'does not select it'
            raise Disagreement('row %s %s: the proved reader says %s, SQLite says %s and %s' % (row[0], row[1:], answer, found, picks))
        counts[answer] += 1
    return counts
