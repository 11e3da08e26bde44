"""What OGC 21-065r2 says of time predicates on a row of a GeoPackage's DATETIME values: by Python's datetime, to the millisecond, and without any text."""
import datetime

from model.operators import RELATIONS, TEMPORAL
from model.records import children

FORM = '%Y-%m-%dT%H:%M:%S.%fZ'
FORMULAS = {    # over the starts and ends a, b and c, d of the two sides
    'TAfter': lambda a, b, c, d: a > d, 'TBefore': lambda a, b, c, d: b < c, 'TContains': lambda a, b, c, d: a < c and b > d,
    'TDisjoint': lambda a, b, c, d: b < c or a > d, 'TDuring': lambda a, b, c, d: a > c and b < d, 'TEquals': lambda a, b, c, d: a == c and b == d,
    'TFinishedBy': lambda a, b, c, d: a < c and b == d, 'TFinishes': lambda a, b, c, d: a > c and b == d,
    'TIntersects': lambda a, b, c, d: not (b < c or a > d), 'TMeets': lambda a, b, c, d: b == c, 'TMetBy': lambda a, b, c, d: a == d,
    'TOverlappedBy': lambda a, b, c, d: a > c and a < d and b > d, 'TOverlaps': lambda a, b, c, d: a < c and b > c and b < d,
    'TStartedBy': lambda a, b, c, d: a == c and b > d, 'TStarts': lambda a, b, c, d: a == c and b < d}
SIGNS = dict(zip(RELATIONS, (lambda a, b: a == b, lambda a, b: a != b, lambda a, b: a < b, lambda a, b: a > b, lambda a, b: a <= b, lambda a, b: a >= b)))


def instant(end, cells, second=False):
    """In the order of time: an open start lies below every instant, an open end, the second of an interval, above, and each is equal to any other such."""
    if end[0] == 'unbounded':
        return 2 if second else 0, None
    return 1, datetime.datetime(*end[1:]) if end[0] == 'timestamp' else datetime.datetime.strptime(cells[end[1]], FORM)


def span(side, cells):
    return [instant(side[1], cells), instant(side[2], cells, True)] if side[0] == 'interval' else [instant(side, cells)] * 2


def truth(tree, cells):
    """Of a predicate, or of And, Or and Neg of such: true or false. cells: the columns' values by name, none of them NULL."""
    if tree[0] == 'monadic':
        return tree[1] == 'Neg' and not truth(tree[2], cells)
    if tree[1] in ('And', 'Or'):
        return (all if tree[1] == 'And' else any)(truth(child, cells) for child in children(tree))
    sides = [span(side, cells) for side in children(tree)]
    return FORMULAS[tree[1]](*sides[0], *sides[1]) if tree[1] in TEMPORAL else SIGNS[tree[1]](sides[0][0], sides[1][0])
