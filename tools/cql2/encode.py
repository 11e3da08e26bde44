"""A CQL2-JSON filter as a tree of document 01's records (OGC 21-065r2, JSON encoding)."""
import difflib
import re
import struct

from .errors import BadInput
from .geometry import Writer, only
from .reading import Number, shortened
from .records import (ARRAY, BOOL, DATE, FUNCTION, ID, INTERVAL, NULL, NUM, SPATIAL, STR, TIMESTAMP, UNBOUNDED, Node, dyadic, monadic)

# What an expression gives. A property or a function may give anything.
CONDITION, TRUTH, CHARACTER, NUMERIC, INSTANT, INTERVALS, GEOMETRY, LIST, NOTHING, ANY = (
    'a condition', 'true or false', 'a text', 'a number', 'an instant', 'an interval', 'a geometry', 'a list', 'null', 'a property or function')

# What an operator takes at a place: the word for messages, and the kinds.
BOOLEAN = ('a condition', {CONDITION, TRUTH, NOTHING, ANY})
SCALAR = ('a text, number, boolean, instant, property or function', {CHARACTER, NUMERIC, TRUTH, INSTANT, NOTHING, ANY})
TEXT = ('a text, property or function', {CHARACTER, NOTHING, ANY})
PATTERN = ('a text (the pattern), also inside casei or accenti', {CHARACTER, NOTHING})
NUMBER = ('a number, arithmetic, property or function', {NUMERIC, NOTHING, ANY})
SPACE = ('a geometry, bbox, property or function', {GEOMETRY, NOTHING, ANY})
TIME = ('a date, timestamp, interval, property or function', {INSTANT, INTERVALS, NOTHING, ANY})
ITEMS = ('a list, property or function', {LIST, NOTHING, ANY})
VALUES = ('a list', {LIST})
VALUE = ('an expression', {CONDITION, TRUTH, CHARACTER, NUMERIC, INSTANT, INTERVALS, GEOMETRY, NOTHING, ANY})
ITEM = ('an expression or a list', VALUE[1] | {LIST})

# name: (operator of document 01, what it takes, what it gives)
KNOWN = {'not': ('Neg', [BOOLEAN], CONDITION), 'isNull': ('IsNull', [VALUE], CONDITION), 'like': ('IsLike', [TEXT, PATTERN], CONDITION),
         'between': ('IsBetween', [NUMBER] * 3, CONDITION), 'in': ('IsInList', [SCALAR, VALUES], CONDITION),
         'casei': ('CaseI', [TEXT], CHARACTER), 'accenti': ('AccentI', [TEXT], CHARACTER),
         'and': ('And', [BOOLEAN] * 2, CONDITION), 'or': ('Or', [BOOLEAN] * 2, CONDITION)}
KNOWN.update({name: (op, [SCALAR] * 2, CONDITION) for name, op in zip('= <> < > <= >='.split(), 'Eq Neq Lt Gt Lte Gte'.split())})
KNOWN.update({name: (op, [NUMBER] * 2, NUMERIC) for name, op in zip('+ - * / div % ^'.split(), 'Plus Minus Mult Div IntDiv Mod Exp'.split())})
KNOWN.update({'s_' + name: ('S' + name.capitalize(), [SPACE] * 2, CONDITION)
              for name in 'intersects equals disjoint touches within overlaps crosses contains'.split()})
KNOWN.update({'t_' + name: ('T' + name[0].upper() + name[1:], [TIME] * 2, CONDITION)
              for name in '''after before contains disjoint during equals finishedBy finishes intersects meets metBy overlappedBy overlaps
              startedBy starts'''.split()})
KNOWN.update({'a_' + name: ('A' + name[0].upper() + name[1:], [ITEMS] * 2, CONDITION) for name in 'equals contains containedBy overlaps'.split()})

DAY = re.compile(r'([0-9]{4})-([0-9]{2})-([0-9]{2})')
CLOCK = re.compile(DAY.pattern + r'T([0-9]{2}):([0-9]{2}):([0-9]{2})(?:\.([0-9]+))?Z')
OFFSET = re.compile(DAY.pattern + r'T[0-9]{2}:[0-9]{2}(?::[0-9]{2}(?:\.[0-9]+)?)?([+-][0-9]{2}(?::?[0-9]{2})?)')


class Encoder:
    def __init__(self, precision, srid, functions=()):
        self.wkt, self.srid, self.functions = Writer(precision), srid, frozenset(functions)

    def filter(self, value):
        """The tree of a whole filter."""
        return self.operand(value, '$', BOOLEAN, 'a filter')

    def operand(self, value, place, takes, whose):
        node, gives = self.expression(value, place)
        if gives not in takes[1]:
            raise BadInput('%s takes %s here, not %s' % (whose, takes[0], gives), place)
        return node

    def expression(self, value, place):
        """The tree of an expression, and what it gives."""
        if value is None:
            return Node(NULL, place), NOTHING
        if isinstance(value, bool):
            return Node(BOOL, place, bytes([value])), TRUTH
        if isinstance(value, Number):
            return number(value, place), NUMERIC
        if isinstance(value, str):
            return text(value, place), CHARACTER
        if isinstance(value, list):
            return self.array(value, place, ITEM), LIST
        return self.object(value, place)

    def object(self, value, place):
        if 'op' in value:
            return self.operation(value, place)
        for name, method in (('property', self.property), ('date', self.instant), ('timestamp', self.instant), ('interval', self.interval)):
            if name in value:
                only(value, (name,), place)
                return method(value[name], place + '.' + name, name)
        if 'bbox' in value and 'type' not in value:
            return self.spatial(self.wkt.box(value, place), place)
        if 'type' in value:
            return self.spatial(self.wkt.geometry(value, place), place)
        if 'filter' in value:
            raise BadInput('this is a request that holds a filter: give the value of its member "filter" alone', place)
        raise BadInput('an object with "op", "property", "date", "timestamp", "interval", "bbox" or "type" is due', place)

    def property(self, name, place, _):
        if not isinstance(name, str):
            raise BadInput('a property is named by a text', place)
        return Node(ID, place, encoded(name)), ANY

    def instant(self, value, place, name):
        if not isinstance(value, str):
            raise BadInput('a %s is written as a text' % name, place)
        return (day if name == 'date' else stamp)(value, place), INSTANT

    def interval(self, value, place, _):
        if not isinstance(value, list) or len(value) != 2:
            raise BadInput('an interval is a list of two ends', place)
        return Node(INTERVAL, place, b'', [self.end(x, '%s[%d]' % (place, k)) for k, x in enumerate(value)]), INTERVALS

    def end(self, value, place):
        if value == '..':
            return Node(UNBOUNDED, place)
        if isinstance(value, str):
            return stamp(value, place) if 'T' in value else day(value, place)
        takes = ('a date, timestamp, "..", property or function', {INSTANT, NOTHING, ANY})
        return self.operand(value, place, takes, 'an interval')

    def spatial(self, wkt, place):
        return Node(SPATIAL, place, struct.pack('<I', self.srid) + wkt.encode()), GEOMETRY

    def array(self, value, place, takes):
        return Node(ARRAY, place, b'', [self.operand(x, '%s[%d]' % (place, k), takes, 'this list') for k, x in enumerate(value)])

    def operation(self, value, place):
        only(value, ('op', 'args'), place)
        name, args = value['op'], value.get('args')
        if not isinstance(name, str):
            raise BadInput('an operator is named by a text', place + '.op')
        if not isinstance(args, list):
            raise BadInput('"args", a list, is missing for %s' % shortened(name), place)
        if name in self.functions:
            return self.function(name, args, place), ANY
        if name not in KNOWN:
            raise BadInput(unknown(name), place + '.op')
        return self.known(name, args, place), KNOWN[name][2]

    def function(self, name, args, place):
        name = encoded(name)[:255]
        children = [self.expression(x, '%s.args[%d]' % (place, k))[0] for k, x in enumerate(args)]
        return Node(FUNCTION, place, bytes([len(name)]) + name, children)

    def known(self, name, args, place):
        op, takes, _ = KNOWN[name]
        many = name in ('and', 'or')
        if len(args) < len(takes) or len(args) > len(takes) and not many:
            due = '%d argument%s' % (len(takes), '' if len(takes) == 1 else 's')
            raise BadInput('%s takes %s%s, not %d' % (name, due, ' or more' if many else '', len(args)), place + '.args')
        if many:
            takes = takes[:1] * len(args)
        if name == 'in' and isinstance(args[1], list):
            left = self.operand(args[0], place + '.args[0]', SCALAR, name)
            return dyadic(op, place, left, self.array(args[1], place + '.args[1]', SCALAR))
        nodes = [self.operand(x, '%s.args[%d]' % (place, k), take, name) for k, (x, take) in enumerate(zip(args, takes))]
        return combined(name, op, place, nodes)


def combined(name, op, place, nodes):
    if name in ('and', 'or'):
        return folded(op, place, nodes)
    if name == 'between':
        return dyadic(op, place, nodes[0], Node(ARRAY, place, b'', nodes[1:]))
    if name in ('casei', 'accenti') and nodes[0].kind == STR:
        # a written text carries the collation itself, as `E::reduce` has it
        flags = nodes[0].head[0] | (1 if name == 'casei' else 2)
        return Node(STR, nodes[0].place, bytes([flags]) + nodes[0].head[1:])
    return monadic(op, place, *nodes) if len(nodes) == 1 else dyadic(op, place, *nodes)


def folded(op, place, nodes):
    """Halves, not a chain: a hundred conditions are then seven levels deep, of 32 that may be."""
    if len(nodes) == 1:
        return nodes[0]
    half = (len(nodes) + 1) // 2
    return dyadic(op, place, folded(op, place, nodes[:half]), folded(op, place, nodes[half:]))


def encoded(text):
    return text.encode('utf-8', 'surrogatepass')


def text(value, place):
    return Node(STR, place, b'\0' + encoded(value))


def number(value, place):
    """Mantissa and scale. What the fields cannot hold is written as their largest, which the program refuses as it does any number too long."""
    if value.point() > 18 or len(value.digits) > 18 or value.power < -255:
        return Node(NUM, place, struct.pack('<qB', 2 ** 63 - 1, 255))
    scale = max(-value.power, 0)
    mantissa = int(value.digits or '0') * 10 ** max(value.power, 0)
    return Node(NUM, place, struct.pack('<qB', -mantissa if value.negative else mantissa, scale))


def day(value, place):
    match = DAY.fullmatch(value)
    if not match:
        raise BadInput('"%s" is not written as a date, YYYY-MM-DD' % shortened(value), place)
    return Node(DATE, place, struct.pack('<HBB', *map(int, match.groups())))


def stamp(value, place):
    match = CLOCK.fullmatch(value)
    if not match and OFFSET.fullmatch(value):
        raise BadInput('"%s" has an offset from UTC, %s: a timestamp is written in UTC, YYYY-MM-DDTHH:MM:SSZ'
                       % (shortened(value), OFFSET.fullmatch(value).group(4)), place)
    if not match:
        raise BadInput('"%s" is not written as a timestamp, YYYY-MM-DDTHH:MM:SSZ' % shortened(value), place)
    *fields, fraction = match.groups()
    rule = None
    if fraction and fraction.strip('0'):
        fields[5] = 255    # the record has no place for it: let it be refused like any other second that is none
        rule = 'the timestamp has a fraction of a second, .%s, and only whole seconds are taken' % shortened(fraction)
    return Node(TIMESTAMP, place, struct.pack('<HBBBBB', *map(int, fields)), rule=rule)


# What others write, where the nearest spelling would say the opposite.
OTHERS = {'!=': '<>', 'isNotNull': 'not, and isNull inside it', 'notNull': 'not, and isNull inside it'}


def unknown(name):
    near = name in OTHERS and [OTHERS[name]] or difflib.get_close_matches(name, KNOWN, 1, 0.6) or [x for x in KNOWN if x.lower() == name.lower()]
    hint = 'did you mean %s?' % near[0] if near else 'if it is a function of your database, add --function %s' % shortened(name)
    return 'unknown operator "%s"; %s' % (shortened(name), hint)


# Refusal 6 in words, by the kind of the record that breaks its rule.
NAME_RULE = 'a name has 1 to 64 letters, digits and underscores, no digit first, and is no keyword of SQLite, nor DIV, FALSE or TRUE'
RULES = {
    NUM: 'a number has at most 15 digits in all, and at most 9 after the point',
    DATE: 'there is no such day from year 1 to 9999',
    TIMESTAMP: 'there is no such time: a day from year 1 to 9999, hour 0 to 23, minute and second 0 to 59, whole seconds',
    SPATIAL: 'the geometry written as text is longer than 4,096 characters',
    ID: NAME_RULE,
    FUNCTION: NAME_RULE,
}
