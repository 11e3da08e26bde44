"""Trees, settings and rows as the records of document 01 ("Records", "Truth").

A tree is a tuple, the name of its kind first: ('null',), ('unbounded',), ('bool', 0 or 1), ('num', m, s), ('str', flags, text),
('date', y, m, d), ('timestamp', y, m, d, h, i, s), ('spatial', srid, text), ('id', name), ('monadic', operator, tree),
('dyadic', operator, tree, tree), ('function', name, trees), ('array', trees), ('interval', tree, tree). Operators go by their names."""
import struct
from typing import NamedTuple

from .operators import NUMBER

KINDS = 'null unbounded bool num str date timestamp spatial id monadic dyadic function array interval'.split()
SETTINGS_KIND, COLUMN_KIND = 100, 200
LENGTH, HEAD = struct.Struct('<I'), struct.Struct('<IH')    # the length, which counts kind and body; the length and the kind
NUM, DATE, TIMESTAMP, SRID, OPERATOR = map(struct.Struct, ('<qB', '<HBB', '<HBBBBB', '<I', '<H'))


class Settings(NamedTuple):
    precision: int
    ci: str
    ai: str
    cai: str


SHEET_SETTINGS = Settings(7, 'NC', 'NA', 'NCA')    # document 01, "Sixteen sheets"


def record(kind, body=b''):
    return HEAD.pack(len(body) + 2, kind) + body


def frame(data, at, end):
    """The kind of the record at `at`, where its body begins and where it ends; None if no whole record lies there before `end`."""
    if end - at < HEAD.size:
        return None
    length, kind = HEAD.unpack_from(data, at)
    if length < 2 or length > end - at - 4:
        return None
    return kind, at + HEAD.size, at + 4 + length


# ---- each kind from the bytes of its parts, right or not


def null(): return record(0)
def unbounded(): return record(1)
def boolean(b): return record(2, bytes([b]))
def num(m, s=0): return record(3, NUM.pack(m, s))
def string(text, flags=0): return record(4, bytes([flags]) + text)
def date(*fields): return record(5, DATE.pack(*fields))
def timestamp(*fields): return record(6, TIMESTAMP.pack(*fields))
def spatial(srid, text): return record(7, SRID.pack(srid) + text)
def ident(name): return record(8, name)
def monadic(number, tree): return record(9, OPERATOR.pack(number) + tree)
def dyadic(number, left, right): return record(10, OPERATOR.pack(number) + left + right)
def function(name, *items): return record(11, counted(name) + b''.join(items))
def array(*items): return record(12, b''.join(items))
def interval(start, stop): return record(13, start + stop)
def counted(name): return bytes([len(name)]) + name


def before_records(kind, body):
    """How many bytes of a body stand before its records; None for a kind that holds none."""
    if kind == 11:
        return 1 + body[0] if body else 1
    return {9: OPERATOR.size, 10: OPERATOR.size, 12: 0, 13: 0}.get(kind)


# ---- whole trees, settings and rows


ENCODERS = {
    'null': null, 'unbounded': unbounded, 'bool': boolean, 'num': num, 'date': date, 'timestamp': timestamp,
    'str': lambda flags, text: string(text.encode(), flags),
    'spatial': lambda srid, text: spatial(srid, text.encode()),
    'id': lambda name: ident(name.encode()),
    'monadic': lambda operator, tree: monadic(NUMBER[operator], encode(tree)),
    'dyadic': lambda operator, left, right: dyadic(NUMBER[operator], encode(left), encode(right)),
    'function': lambda name, items: function(name.encode(), *map(encode, items)),
    'array': lambda items: array(*map(encode, items)),
    'interval': lambda start, stop: interval(encode(start), encode(stop))}


def encode(tree):
    return ENCODERS[tree[0]](*tree[1:])


def children(tree):
    kind = tree[0]
    if kind in ('monadic', 'dyadic'):
        return tree[2:]
    if kind in ('array', 'function'):
        return tree[-1]
    return tree[1:] if kind == 'interval' else ()


def levels(tree):
    return 1 + max(map(levels, children(tree)), default=0)


def settings_record(settings):
    """Of (precision, name, name, name)."""
    return settings_bytes(settings[0], *(name.encode() for name in settings[1:]))


def settings_bytes(precision, *names):
    return record(SETTINGS_KIND, bytes([precision]) + b''.join(map(counted, names)))


def column(name, value, kind=COLUMN_KIND):
    """One column of a row; None is NULL."""
    return record(kind, counted(name) + (b'\0' if value is None else b'\1' + value))


def row(cells):
    return b''.join(column(name, value) for name, value in cells)
