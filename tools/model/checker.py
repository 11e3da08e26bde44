"""Which settings and trees are accepted (document 01, "Records"; refusals 1 and 3 to 7 of "What a caller hears")."""
import calendar
from functools import partial

from . import limits, operators, records, strings
from .limits import PLANNER
from .names import is_name
from .refusals import DEPTH, FIELD, FRAME, KIND, PLACE, SETTINGS, require


def settings_of(data):
    """The settings, or refusal 1: the record is whole, alone and of its kind, a precision, three names, and nothing more."""
    kind, at, end = records.frame(data, 0, len(data)) or (None, 0, 0)
    require(kind == records.SETTINGS_KIND and end == len(data) and at < end and data[at] <= limits.PRECISION, SETTINGS)
    found, at = [data[at]], at + 1
    for _ in range(3):
        require(at < end and at + 1 + data[at] <= end, SETTINGS)
        name, at = data[at + 1:at + 1 + data[at]], at + 1 + data[at]
        require(is_name(name), SETTINGS)
        found.append(name.decode())
    require(at == end, SETTINGS)
    return records.Settings(*found)


def tree_of(data, limit=PLANNER):
    """The tree, or the first of the refusals 3 to 6 in reading order; only then 7."""
    [tree] = exactly(1, data, 0, len(data), 1, limit)
    check_places(tree)
    return tree


# ---- refusals 3 to 6, a record before those inside it


def record_at(data, at, end, depth, limit):
    """The tree of the record that is due at `at`, and where it ends."""
    framed = records.frame(data, at, end)
    require(framed, FRAME)
    kind, start, stop = framed
    require(depth <= limit.depth, DEPTH)
    require(kind < len(records.KINDS), KIND)
    name, body = records.KINDS[kind], data[start:stop]
    fields = FIELDS[name](body)
    before = records.before_records(kind, body)
    if before is None:
        return (name, *fields), stop
    inside = data, start + before, stop, depth + 1, limit
    if name in COUNTS:
        return (name, *fields, *exactly(COUNTS[name], *inside)), stop
    return (name, *fields, to_end(*inside)), stop


def exactly(count, data, at, end, depth, limit):
    trees = []
    for _ in range(count):
        tree, at = record_at(data, at, end, depth, limit)
        trees.append(tree)
    require(at == end, FRAME)
    return trees


def to_end(data, at, end, depth, limit):
    trees = []
    while at < end:
        tree, at = record_at(data, at, end, depth, limit)
        trees.append(tree)
    return trees


# ---- what stands in a body before its records, or refusal 6; 5 for an operator


def nothing(body):
    require(body == b'', FIELD)
    return ()


def records_alone(body):
    return ()


def operator_of(permitted, body):
    require(len(body) >= records.OPERATOR.size, FIELD)
    number = records.OPERATOR.unpack_from(body)[0]
    require(number < len(operators.NAMES) and operators.NAMES[number] in permitted, KIND)
    return (operators.NAMES[number],)


def function_name_of(body):
    require(body and len(body) > body[0], FIELD)
    return id_of(body[1:1 + body[0]])


def bool_of(body):
    require(body in (b'\0', b'\1'), FIELD)
    return (body[0],)


def num_of(body):
    require(len(body) == records.NUM.size, FIELD)
    m, s = records.NUM.unpack(body)
    require(-limits.MANTISSA <= m <= limits.MANTISSA and s <= limits.SCALE, FIELD)
    return m, s


def str_of(body):
    require(1 <= len(body) <= 1 + limits.STR and body[0] <= limits.FLAGS and strings.is_str(body[1:]), FIELD)
    return body[0], body[1:].decode()


def date_of(body):
    require(len(body) == records.DATE.size, FIELD)
    year, month, day = records.DATE.unpack(body)
    require(1 <= year <= limits.YEAR and 1 <= month <= 12 and 1 <= day <= calendar.monthrange(year, month)[1], FIELD)
    return year, month, day


def timestamp_of(body):
    require(len(body) == records.TIMESTAMP.size, FIELD)
    hour, minute, second = body[4:]
    require(hour <= 23 and minute <= 59 and second <= 59, FIELD)
    return *date_of(body[:4]), hour, minute, second


def spatial_of(body):
    require(5 <= len(body) <= 4 + limits.SPATIAL and strings.is_spatial(body[4:]), FIELD)
    return records.SRID.unpack_from(body)[0], body[4:].decode()


def id_of(body):
    require(is_name(body), FIELD)
    return (body.decode(),)


FIELDS = {
    'null': nothing, 'unbounded': nothing, 'bool': bool_of, 'num': num_of, 'str': str_of, 'date': date_of, 'timestamp': timestamp_of,
    'spatial': spatial_of, 'id': id_of, 'monadic': partial(operator_of, frozenset(operators.MONADIC)),
    'dyadic': partial(operator_of, frozenset(operators.DYADIC)), 'function': function_name_of, 'array': records_alone, 'interval': records_alone}
COUNTS = {'monadic': 1, 'dyadic': 2, 'interval': 2}    # of records, where they are not any number


# ---- refusal 7


def check_places(tree, operand=False):
    """`operand`: the tree is a direct operand of a temporal operator."""
    require(tree[0] != 'interval' or operand, PLACE)
    operator = tree[1] if tree[0] == 'dyadic' else None
    temporal = operator in operators.TEMPORAL
    if temporal and operator not in operators.INSTANT_OR_INTERVAL:
        require(tree[2][0] == tree[3][0] == 'interval', PLACE)
    if operator in operators.BETWEEN:
        require(tree[3][0] == 'array' and len(tree[3][1]) == 2, PLACE)
    for child in records.children(tree):
        check_places(child, temporal)
