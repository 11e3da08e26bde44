"""SQLite's answers, by Python's sqlite3."""
import sqlite3

from model import calls, reader

MOST_COLUMNS = 2000    # of an SQLite table


def truth(text, row, declared='TEXT'):
    """The text's truth on a table that holds the row, its columns declared so; None where SQLite does not take the text or the row, or the text is no
    UTF-8."""
    cells = calls.heard(reader.columns, row)
    if isinstance(cells, int) or not cells or len(cells) > MOST_COLUMNS or b'\0' in text:
        return None
    base = sqlite3.connect(':memory:')
    try:
        base.execute('CREATE TABLE t (%s)' % ', '.join('"%s" %s' % (name.decode(), declared) for name in cells))
        base.execute('INSERT INTO t VALUES (%s)' % ', '.join('?' * len(cells)), [None if v is None else v.decode() for v in cells.values()])
        found = base.execute('SELECT ' + text.decode() + ' FROM t').fetchall()
    except (sqlite3.Error, sqlite3.Warning, ValueError):
        return None
    finally:
        base.close()
    if len(found) != 1 or len(found[0]) != 1 or not isinstance(found[0][0], (int, float, type(None))):
        return None
    return 'unknown' if found[0][0] is None else 'true' if found[0][0] else 'false'


def value(literal):
    """The bytes of the text that SQLite reads in a literal."""
    base = sqlite3.connect(':memory:')
    try:
        kind, written = base.execute('SELECT typeof(%s), hex(%s)' % (literal, literal)).fetchone()
    finally:
        base.close()
    return bytes.fromhex(written) if kind == 'text' else None
