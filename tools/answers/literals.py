"""The Strs of a tree in its text: a character of its own stands for each value, so that nothing of it is taken for another part of the text. And the
timestamps and the open ends of a tree or a text as the second call writes them."""
import re

from answers import sqlite
from model.records import children
from model.strings import quoted

STAND_IN = 0xf0000    # the first of these characters
END = chr(STAND_IN - 1)    # stands for an open end
STAMP = re.compile(r"'(\d{4}-\d\d-\d\dT\d\d:\d\d:\d\d)'")


def rebuilt(tree, change):
    """The tree with what `change` makes of each record in its place, the innermost first."""
    again = lambda x: rebuilt(x, change) if isinstance(x, tuple) else list(map(again, x)) if isinstance(x, list) else x
    return change(tuple(map(again, tree)))


def with_texts(tree, change):
    """The tree with another text in each Str."""
    return rebuilt(tree, lambda x: ('str', x[1], change(x[2])) if x[0] == 'str' else x)


def with_ends(tree, text):
    """The tree with a Str of this text in the place of each `..` that is the second end of an Interval."""
    return rebuilt(tree, lambda x: ('interval', x[1], ('str', 0, text)) if x[0] == 'interval' and x[2] == ('unbounded',) else x)


def as_stored(tree):
    """The tree with a Str in the place of each timestamp, as a GeoPackage stores it, and of each open end: the Rust's text of this is the second call's
    of the tree."""
    stamp = '%04d-%02d-%02dT%02d:%02d:%02d.000Z'
    return with_ends(rebuilt(tree, lambda x: ('str', 0, stamp % x[1:]) if x[0] == 'timestamp' else x), 'A')


def with_milliseconds(text):
    """The text with .000Z after the seconds of each timestamp; no Str of it may look like one."""
    return STAMP.sub(r"'\1.000Z'", text)


def by_second_call(text):
    """The second call's text, of the Rust's of a tree that has END for each open end."""
    return with_milliseconds(text).replace(quoted(END), "'A'")


def values_of(tree):
    return [tree[2]] if tree[0] == 'str' else [value for child in children(tree) for value in values_of(child)]


class Literals:
    """A character of its own for each value of a Str; its literal, as SQLite reads it back."""

    def __init__(self):
        self.stand_ins = {}

    def stand_in(self, value):
        return self.stand_ins.setdefault(value, chr(STAND_IN + len(self.stand_ins)))

    def wrong(self):
        return [value for value in self.stand_ins if sqlite.value(quoted(value)) != value.encode()]

    def put(self, text):
        """The literals in the places of their characters."""
        values = {one: value for value, one in self.stand_ins.items()}
        return re.sub("'([%s-%s])'" % (chr(STAND_IN), max(values, default=chr(STAND_IN))), lambda found: quoted(values[found[1]]), text)
