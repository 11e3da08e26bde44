"""Document 01's records: trees, settings and rows as bytes."""
import struct

NULL, UNBOUNDED, BOOL, NUM, STR, DATE, TIMESTAMP, SPATIAL, ID, MONADIC, DYADIC, FUNCTION, ARRAY, INTERVAL = range(14)

OPERATORS = '''Plus Minus Mult Div IntDiv Mod Exp Neg Eq Neq Lt Gt Lte Gte And Or CaseI AccentI SIntersects SEquals SDisjoint STouches SWithin
SOverlaps SCrosses SContains TAfter TBefore TContains TDisjoint TDuring TEquals TFinishedBy TFinishes TIntersects TMeets TMetBy TOverlappedBy
TOverlaps TStartedBy TStarts AEquals AContains AContainedBy AOverlaps IsLike IsNotLike IsBetween IsNotBetween IsInList IsNotInList IsNull
IsNotNull'''.split()


def record(kind, body=b''):
    return struct.pack('<IH', len(body) + 2, kind) + body


class Node:
    """A record to be: its kind, the bytes of its body that stand before its children, the children, and its place in the filter.

    `rule` has the words for a refusal of this record where its kind's would not say why."""

    def __init__(self, kind, place, head=b'', children=(), rule=None):
        self.kind, self.place, self.head, self.children, self.rule = kind, place, head, list(children), rule

    def encode(self):
        return record(self.kind, self.head + b''.join(child.encode() for child in self.children))

    def walk(self, depth=1):
        """Every record in reading order, parent first, with its depth."""
        yield self, depth
        for child in self.children:
            yield from child.walk(depth + 1)

    def bare(self, levels):
        """This record with Null in the place of what lies more than that many levels below it."""
        null = Node(NULL, self.place)
        if levels == 0:
            return Node(self.kind, self.place, self.head, [null for _ in self.children])
        # of the children only the kinds that rule 7 asks for are kept
        kept = [child.bare(levels - 1) if child.kind in (ARRAY, INTERVAL) else null for child in self.children]
        return Node(self.kind, self.place, self.head, kept)


def operator(name):
    return struct.pack('<H', OPERATORS.index(name))


def monadic(name, place, child):
    return Node(MONADIC, place, operator(name), [child])


def dyadic(name, place, left, right):
    return Node(DYADIC, place, operator(name), [left, right])


def settings(precision, ci, ai, cai):
    names = [name.encode('utf-8', 'surrogateescape') for name in (ci, ai, cai)]
    return record(100, bytes([precision]) + b''.join(bytes([len(name)]) + name for name in names))


def row(columns):
    """The records of a row: (name, text or None) for each column."""
    out = b''
    for name, value in columns:
        name = name.encode()
        out += record(200, bytes([len(name)]) + name + (b'\0' if value is None else b'\1' + value.encode()))
    return out
