"""Whether SQLite can run a text: it is prepared on an empty table in memory that has the filter's columns, collations and functions."""
import sqlite3

from . import lowering, proved, records
from .differences import Found
from .geopackage import quoted

SPATIAL = ['ST_' + name for name in 'Intersects Equals Disjoint Touches Within Overlaps Crosses Contains GeomFromText ReducePrecision'.split()]


class Scratch:
    table = None    # what is said against the table, and so against every text

    def __init__(self, tree, collations):
        nodes = [node for node, _ in tree.walk()]
        self.connection = sqlite3.connect(':memory:')
        for name in collations:
            self.connection.create_collation(name, lambda a, b: 0)
        for name in SPATIAL + [node.head[1:].decode() for node in nodes if node.kind == records.FUNCTION]:
            self.connection.create_function(name, -1, lambda *values: None)
        columns = {node.head.decode().lower(): quoted(node.head.decode()) for node in nodes if node.kind == records.ID}
        try:
            self.connection.execute('CREATE TABLE t (%s)' % ', '.join(columns.values() or ['x']))
        except sqlite3.Error as e:    # more columns than a table can have
            self.table = str(e)

    def error(self, expression):
        """What SQLite says against an expression; None if it takes it."""
        if self.table:
            return self.table
        try:
            self.connection.execute('EXPLAIN SELECT 1 FROM t WHERE %s' % expression)
        except sqlite3.Error as e:
            return str(e)
        return None


def found(scratch, settings, tree, sql):
    """The text as something that SQLite cannot run, at the smallest part of the filter that it cannot take by itself; None if it can."""
    error = scratch.error(sql)
    if not error:
        return None
    return Found(innermost(scratch, settings, tree), 'SQLite cannot run this text: %s' % error, 'say it in smaller filters, or by other operators', True)


def innermost(scratch, settings, tree):
    nodes = [node for node, _ in tree.walk() if node.kind in (records.ID, records.MONADIC, records.DYADIC, records.FUNCTION)]
    for node, text in zip(reversed(nodes), proved.run('lower', [(settings, node.encode()) for node in reversed(nodes)])):
        if lowering.refusal_of(text) is None and scratch.error(text):
            return node.place
    return tree.place
