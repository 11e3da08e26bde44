"""What the table of differences looks for in a filter. Each function takes a part of the filter and the table, and gives (place, words for the line)."""
import collections
import re

from .columns import BOOLEAN, DATE, DATETIME, GEOMETRY, NUMBER, NUMBERS, STORED, TEXT, TEXTS, TIMESTAMP, UNKNOWN, form
from .encode import KNOWN
from .geopackage import without_accents
from .reading import Number, shortened
from .writing import AFTER, GEOPACKAGE, RUST

# A part of the filter: its value, its place, what it lies in, the outermost first, and the whole filter.
Part = collections.namedtuple('Part', 'value place above whole')
COMPARISONS = ('=', '<>', '<', '>', '<=', '>=')
ARITHMETIC = ('+', '-', '*', '/', 'div', '%', '^')
LOGIC = ('and', 'or', 'not')
FOLDS = ('casei', 'accenti')
TEMPORAL, SPATIAL = ([name for name in KNOWN if name.startswith(start)] for start in ('t_', 's_'))


def walk(value, place='$', above=(), whole=None):
    """Every part of a filter, parents first."""
    whole = whole or Whole(value)
    yield Part(value, place, above, whole)
    inside, at = [], place
    if isinstance(value, list):
        inside = value
    elif isinstance(value, dict) and 'op' in value:
        inside, at = value['args'], place + '.args'
    elif isinstance(value, dict) and 'interval' in value:
        inside, at = value['interval'], place + '.interval'
    for k, x in enumerate(inside):
        yield from walk(x, '%s[%d]' % (at, k), above + (value,), whole)


class Whole:
    """A filter, and what is asked of it as a whole."""

    def __init__(self, value):
        self.value, self.beside = value, None

    def forms(self, table):
        """The forms of instants in the columns that stand beside written ones: there is one writing for all."""
        if self.beside is None:
            names = {column for part in walk(self.value) for _, _, column, _ in beside(part)}
            self.beside = {one for name in names for one in table.forms(name)}
        return self.beside

    def as_the_rust_writes(self, table):
        """Whether a column that stands beside a written timestamp holds instants in the form of the Rust's writing."""
        names = {column for part in walk(self.value) for x, _, column, _ in beside(part) if 'timestamp' in x}
        return any(form(STORED)[:19] in table.forms(name) for name in names)


def operator(value):
    return value.get('op') if isinstance(value, dict) else None


def property_of(value):
    return value.get('property') if isinstance(value, dict) else None


def instant(value):
    """A written instant as the text has it, without what stands behind its seconds; None for all else."""
    found = isinstance(value, dict) and (value.get('date') or value.get('timestamp'))
    return found[:19] if found else None


def written(value, writing):
    """A written instant as the text has it in this writing."""
    return instant(value) + (AFTER[writing] if 'timestamp' in value else '')


def end_of(value):
    """An interval's end, where an instant is written as a text alone."""
    return {'timestamp' if 'T' in value else 'date': value} if isinstance(value, str) and value != '..' else value


def is_interval(value):
    return isinstance(value, dict) and 'interval' in value


def decides(part):
    """Whether a part that is false, and not unknown, can make the filter true: it stands under an odd number of `not`, or in
    what is no condition."""
    above = [operator(value) for value in part.above]
    return above.count('not') % 2 == 1 or any(name not in LOGIC for name in above)


def settled(part, column):
    """Whether what the part lies in decides the rows where the column is NULL: `and` with not isNull of it, or `or` with isNull of it."""
    asked = {'op': 'isNull', 'args': [{'property': column}]}
    wanted = {'and': {'op': 'not', 'args': [asked]}, 'or': asked}
    return any(operator(value) in wanted and wanted[operator(value)] in joined(value, operator(value)) for value in part.above)


def joined(value, name):
    """The conditions that an `and` joins, those of an `and` inside it too; so for `or`."""
    return [y for x in value['args'] for y in (joined(x, name) if operator(x) == name else [x])]


# ---- time


# Of two intervals: which end of the left one the text compares with which of the right one, 0 the start and 1 the end, if not like with like.
LIKE, ACROSS = ((0, 0), (1, 1)), ((0, 1), (1, 0))
COMPARED = {'t_after': ((0, 1),), 't_before': ((1, 0),), 't_meets': ((1, 0),), 't_metBy': ((0, 1),), 't_disjoint': ACROSS, 't_intersects': ACROSS,
            't_overlaps': ((0, 0), (1, 0), (1, 1)), 't_overlappedBy': ((0, 0), (0, 1), (1, 1))}
# Of an interval on the left and on the right: the ends whose columns the text guards, if not all.
BOTH = ((0, 1), (0, 1))
GUARDED = {'t_after': ((1,), (0,)), 't_before': ((0,), (1,)), 't_meets': ((0,), (1,)), 't_metBy': ((1,), (0,)), 't_disjoint': BOTH}
BY_EQUALITY = ('t_equals', 't_finishes', 't_finishedBy', 't_meets', 't_metBy')    # an interval's end is compared by = alone


def ends(part, which):
    """Of a time operator: (side, start 0 or end 1 or None for an instant, value, place)."""
    for side, x in enumerate(part.value['args']):
        place = '%s.args[%d]' % (part.place, side)
        if not is_interval(x):
            yield side, None, x, place
            continue
        for k in which[side]:
            yield side, k, end_of(x['interval'][k]), '%s.interval[%d]' % (place, k)


def used(part):
    """The ends that the text compares."""
    return list(ends(part, [sorted(set(side)) for side in zip(*COMPARED.get(operator(part.value), LIKE))]))


OTHER_WRITING = 'take --writing geopackage, by which it lies above every instant and timestamps end in .000Z, or '


def open_end(part, table):
    """In the Rust's writing alone: in GeoPackage's an open end is right."""
    name = operator(part.value) or ''
    for side, k, value, place in used(part) if name in TEMPORAL and table.writing == RUST else ():
        if value != '..' or k != 1:
            continue
        # by = an open end is right, but for an open start on the other side
        start = any((at, other, x) == (1 - side, 0, '..') for at, other, x, _ in used(part))
        if name not in BY_EQUALITY or name in ('t_meets', 't_metBy') and start:
            yield place, {'op': name, 'writing': '' if part.whole.as_the_rust_writes(table) else OTHER_WRITING}


def false_for_unknown(part, table):
    """A guard is false where a column is NULL, and of several comparisons one can be false, so that the text is not unknown there."""
    name = operator(part.value) or ''
    if name not in TEMPORAL or not any(map(is_interval, part.value['args'])) or not decides(part):
        return
    ended = [property_of(value) for _, k, value, _ in ends(part, GUARDED.get(name, BOTH)) if k is not None]
    columns = [column for column in dict.fromkeys(ended) if column and table.column(column).nullable and not settled(part, column)]
    if columns:
        yield part.place, {'op': name, 'columns': ' or '.join(columns), 'each': ' and of '.join(columns)}


def null_end(part, table):
    """null as an end, which CQL2's own schema does not have: the text leaves it out, or another of its comparisons decides."""
    for side, k, value, place in ends(part, BOTH) if (operator(part.value) or '') in TEMPORAL else ():
        if value is None and k is not None:
            yield place, {'op': operator(part.value)}


def reversed_interval(part, table):
    if is_interval(part.value):
        start, end = (instant(end_of(x)) for x in part.value['interval'])
        size = min(len(start), len(end)) if start and end else 0    # a day beside a time of it is before neither
        if size and end[:size] < start[:size]:
            yield part.place + '.interval', {}


# ---- what is compared with what


def operands(part):
    """(value, place) of each operand that the part compares or reckons with."""
    name, place = operator(part.value) or '', part.place + '.args'
    if name in TEMPORAL:
        return [(value, at) for _, _, value, at in used(part)]
    if name == 'in' and isinstance(part.value['args'][1], list):
        return [(part.value['args'][0], place + '[0]')] + [(x, '%s[1][%d]' % (place, k)) for k, x in enumerate(part.value['args'][1])]
    if lists_equal(part) == (True, True):    # of one value each: written as a comparison in brackets
        return [(x[0], '%s[%d][0]' % (place, k)) for k, x in enumerate(part.value['args'])]
    if name in COMPARISONS + ARITHMETIC + ('between', 'like'):
        return [(x, '%s[%d]' % (place, k)) for k, x in enumerate(part.value['args'])]
    return []


def compared(part):
    """The pairs of operands that the part compares, the left one first."""
    name = operator(part.value)
    if name in TEMPORAL:
        left, right = ([end for end in used(part) if end[0] == side] for side in (0, 1))
        return [((x, p), (y, q)) for _, j, x, p in left for _, k, y, q in right if None in (j, k) or (j, k) in COMPARED.get(name, LIKE)]
    found = operands(part)
    return [(found[0], other) for other in found[1:]]


def beside(part):
    """Of each comparison of a column with a written instant: the instant, its place, the column, and whether the instant stands first."""
    for (x, at), (y, place) in compared(part):
        if instant(x) and property_of(y):
            yield x, at, property_of(y), True
        if property_of(x) and instant(y):
            yield y, place, property_of(x), False


def family(value, table):
    """The family of values that an operand has. A column that is declared DATE or DATETIME has that of the instants which it holds."""
    name = property_of(value)
    if name:
        declared = table.column(name).family
        forms = table.forms(name) if declared in (DATE, DATETIME) else ()
        return declared if not forms else DATETIME if any(len(one) > len('YYYY-MM-DD') for one in forms) else DATE
    if isinstance(value, bool):
        return BOOLEAN
    if isinstance(value, Number) or operator(value) in ARITHMETIC:
        return NUMBER
    if instant(value):
        return TIMESTAMP if 'timestamp' in value else DATE
    if operator(value) in FOLDS:
        return family(value['args'][0], table)
    return TEXT if isinstance(value, str) and value != '..' else UNKNOWN


def column_of(value):
    """The name of the column that an operand is, also inside casei or accenti."""
    while operator(value) in FOLDS:
        value = value['args'][0]
    return property_of(value)


def date_and_timestamp(part, table):
    found = [(family(x, table), x, place) for x, place in operands(part)]
    families = {kind for kind, _, _ in found}
    columns = {kind for kind, x, _ in found if property_of(x)}
    if {DATE, TIMESTAMP} <= families or {DATE, DATETIME} <= columns:
        yield next(place for kind, _, place in found if kind in (TIMESTAMP, DATETIME)), {}


# By how a value lies to its own instant as written: the operators that are right all the same, with the column first and with the written one first.
RIGHT = {'above': (('>=', '<', 't_before'), ('<=', '>', 't_after')), 'below': (('<=', '>', 't_after'), ('>=', '<', 't_before')), 'above or below': ((), ())}


def lies(one, other):
    """How a value of one form lies to its own instant as written in another: of two that begin alike the longer one is above. What is no plain time of
    day, as one with an offset from UTC or the name of a zone, may be another instant than it begins with."""
    if not re.fullmatch(r'(T00:00(:00(\.0+)?)?Z?)?', one[10:]):
        return 'above or below'
    return 'above' if one.startswith(other) else 'below' if other.startswith(one) else 'above or below'


def one_form(value, forms, writing):
    """The way to write an instant as the columns hold it that stand beside written ones."""
    stored = {form(STORED): GEOPACKAGE, form(STORED)[:19]: RUST}
    if set(forms) == {form(STORED)[:10]}:
        return 'write a date'
    mixed = len(forms) > 1 or not set(forms) & set(stored)
    other = GEOPACKAGE if mixed else stored[min(forms)]
    return ', and '.join(['have the columns hold instants in one form, as ' + STORED] * mixed + ['write a timestamp'] * ('date' in value)
                         + ['take --writing ' + other] * (writing != other))


def other_form(part, table):
    """A written instant that is compared with a column which holds instants of another form; where instants of two forms are written that is told."""
    for x, place, column, first in beside(part) if not any(date_and_timestamp(part, table)) else ():
        if family({'property': column}, table) not in (DATETIME, TEXT, UNKNOWN):
            continue
        text = written(x, table.writing)
        others = {one: example for one, example in table.forms(column).items() if one != form(text)}
        ways = {lies(one, form(text)) for one in others}
        how = min(ways) if len(ways) == 1 else 'above or below'
        right = RIGHT[how][first]
        if others and operator(part.value) not in right:
            instead = one_form(x, part.whole.forms(table), table.writing) + ('; %s and %s are right as they are' % right[:2] if right else '')
            yield place, {'written': text, 'column': column, 'has': 'holds' if table.held(column) else 'is declared for',
                          'example': shortened(max(others.values())), 'lies': how, 'instead': instead}
            return


def number_as_text(part, table):
    """A text that looks like a number, beside a column that SQLite takes for numbers though it holds dates."""
    found = operands(part)
    columns = [property_of(x) for x, _ in found if property_of(x) and family(x, table) in (DATE, DATETIME)]
    for x, place in found:
        if columns and isinstance(x, str) and re.fullmatch(r'\s*[+-]?([0-9]+\.?[0-9]*|\.[0-9]+)([eE][+-]?[0-9]+)?\s*', x, re.ASCII):
            yield place, {'column': columns[0]}


TAKES = {'like': {TEXT}, 'as a condition': {BOOLEAN}}
CLASHES = ((TEXTS, NUMBERS | {GEOMETRY}), (NUMBERS, TEXTS | {GEOMETRY}), ({GEOMETRY}, TEXTS | NUMBERS))


def other_type(part, table):
    """A column that meets values of another family, or an operator that takes none of its family."""
    name = operator(part.value) or ''
    found = operands(part)
    if property_of(part.value) and (not part.above or operator(part.above[-1]) in LOGIC):
        name, found = 'as a condition', [(part.value, part.place)]
    kinds = {family(x, table) for x, _ in found} - {UNKNOWN}
    # what the operator itself takes
    kinds |= {DATE} if name in TEMPORAL else {NUMBER} if name in ARITHMETIC or name == 'between' else TAKES.get(name, set())
    for x, place in found:
        column = column_of(x)
        kind = table.column(column).family if column else UNKNOWN
        clash = next((bad for good, bad in CLASHES if kind in good), set())
        if kinds & clash:
            yield place, {'column': column, 'kind': kind, 'other': sorted(kinds & clash)[0]}
            return


# ---- texts and collations


def folds(value):
    """What stands inside casei and accenti, those that are written, and those that count in the text."""
    names = []
    while operator(value) in FOLDS:
        names.append(operator(value))
        value = value['args'][0]
    counts = set(names) if isinstance(value, str) or len(names) > 1 and names[0] != names[1] else set(names[:1])
    return value, set(names), counts


def lost_fold(part, table):
    if operator(part.value) in FOLDS and not (part.above and operator(part.above[-1]) in FOLDS):
        _, names, counts = folds(part.value)
        if names != counts:
            yield part.place, {'fold': ' and '.join(sorted(names - counts))}


def same_folds(one, other):
    """Whether it makes no difference that SQLite takes one side's collation for both."""
    (x, names, _), (y, others, _) = folds(one), folds(other)
    if names == others:
        return True
    kept = {'casei': str.lower, 'accenti': without_accents}
    plain = lambda value, missing: isinstance(value, str) and all(value == kept[fold](value) for fold in missing)
    # a written text that a fold leaves as it is may stand beside a folded column, whose collation must be the one that counts: the left one, if any
    return names > others and plain(y, names - others) or not names and plain(x, others)


def one_sided_fold(part, table):
    if operator(part.value) in COMPARISONS and not same_folds(*part.value['args']):
        yield part.place, {}


def fold_in_list(part, table):
    if operator(part.value) == 'in':
        left, items = part.value['args']
        for k, x in enumerate(items):
            if not same_folds(left, x) or folds(x)[1] > folds(left)[1]:
                yield '%s.args[1][%d]' % (part.place, k), {}
                return


def declared_collation(part, table):
    """A column that is declared to be compared by another collation than the plain one, with none written beside it."""
    found = operands(part) if operator(part.value) in COMPARISONS + ('in',) else []
    if any(folds(x)[1] for x, _ in found):
        return
    for x, place in found:
        if property_of(x) and table.column(property_of(x)).family == TEXT and table.collation(property_of(x)) != 'BINARY':
            yield place, {'column': property_of(x), 'collation': table.collation(property_of(x))}
            return


def other_order(part, table):
    """Texts that are ordered by a file's own bytes, and these are UTF-16."""
    found = operands(part) if operator(part.value) in ('<', '>', '<=', '>=') and table.encoding() != 'UTF-8' else []
    if found and TEXT in {family(x, table) for x, _ in found} and not any(folds(x)[1] for x, _ in found):
        yield part.place, {'encoding': table.encoding()}


def fold_in_function(part, table):
    name = operator(part.above[-1]) if part.above else None
    if operator(part.value) in FOLDS and name is not None and name not in KNOWN:
        yield part.place, {'op': name}


def pattern(part):
    """A LIKE's pattern, its place, and what is folded on both sides and on any."""
    if operator(part.value) != 'like' or not isinstance(folds(part.value['args'][1])[0], str):
        return None
    left, right = (folds(x) for x in part.value['args'])
    return right[0], part.place + '.args[1]', left[1] & right[1], left[1] | right[1]


def like_case(part, table):
    text, place, both, _ = pattern(part) or ('', '', set(), set())
    if re.search('[A-Za-z]', text) and 'casei' not in both:
        yield place, {}


def like_case_beyond(part, table):
    text, place, _, either = pattern(part) or ('', '', set(), set())
    if 'casei' in either and any(not c.isascii() and not c.lower() == c == c.upper() for c in text):
        yield place, {}


def like_accents(part, table):
    _, place, _, either = pattern(part) or ('', '', set(), set())
    if 'accenti' in either:
        yield place, {}


def like_escape(part, table):
    text, place, _, _ = pattern(part) or ('', '', set(), set())
    if '\\' in text:
        yield place, {}


# ---- numbers


def may_be(value, table, whole):
    """Whether an operand may be a whole number, or else a fraction."""
    if isinstance(value, Number):
        return (value.power >= 0) == whole
    if property_of(value):
        column = table.column(property_of(value))
        return not column.fraction if whole else not column.whole
    if operator(value) in ARITHMETIC:
        return (all if whole else any)(may_be(x, table, whole) for x in value['args'])
    return True


def exact(value):
    return int(value.digits or '0') * 10 ** value.power * (-1 if value.negative else 1) if isinstance(value, Number) and 0 <= value.power < 19 else None


def whole_division(part, table):
    if operator(part.value) == '/' and all(may_be(x, table, True) for x in part.value['args']):
        above, below = map(exact, part.value['args'])
        if above is None or below is None or below and above % below:
            yield part.place, {}


def fraction_modulo(part, table):
    if operator(part.value) == '%' and any(may_be(x, table, False) for x in part.value['args']):
        yield part.place, {}


# ---- what SQLite cannot run


def no_operator(part, table):
    name = operator(part.value)
    if name in ('^', 'div', 'a_contains', 'a_containedBy', 'a_overlaps'):
        yield part.place, {'op': name}


def lists_equal(part):
    """Of a_equals: whether SQLite can run it, and whether it is right; None for another operator."""
    if operator(part.value) != 'a_equals':
        return None
    sizes = [len(x) if isinstance(x, list) else 1 for x in part.value['args']]
    lists = all(isinstance(x, list) for x in part.value['args'])
    return sizes[0] == sizes[1] != 0, sizes == [1, 1] and lists


def list_and_value(part, table):
    found = lists_equal(part)
    if found and not found[0]:
        yield part.place, {}


def list_in_order(part, table):
    if lists_equal(part) == (True, False):
        yield part.place, {}


def is_literal(value):
    return value is not None and not property_of(value) and (not operator(value) or isinstance(folds(value)[0], str))


def list_of_others(part, table):
    if operator(part.value) == 'in' and len(part.value['args'][1]) > 1:
        for k, x in enumerate(part.value['args'][1]):
            if not is_literal(x):
                yield '%s.args[1][%d]' % (part.place, k), {}
                return


# ---- space


def geometry_columns(part):
    name = operator(part.value) or ''
    return [(property_of(x), '%s.args[%d]' % (part.place, k)) for k, x in enumerate(part.value['args']) if property_of(x)] if name in SPATIAL else []


def null_geometry(part, table):
    above = [operator(value) for value in part.above]
    if table.open and not table.spatialite or above.count('not') % 2 == 1 and all(name in LOGIC for name in above):
        return    # NOT of -1 is 0, so the row is not picked
    for column, place in geometry_columns(part):
        if table.is_geometry(column) and not settled(part, column) and table.has_null(column):
            yield place, {'column': column}


def no_geometry(part, table):
    for column, place in geometry_columns(part):
        if table.spatialite and not table.is_geometry(column):
            yield place, {'column': column}


def other_system(part, table):
    shapes = [k for k, x in enumerate(part.value['args']) if isinstance(x, dict) and ('type' in x or 'bbox' in x)] if geometry_columns(part) else []
    for column, _ in geometry_columns(part):
        srid = table.column(column).srid
        if table.spatialite and shapes and srid is not None and srid % 2 ** 32 != table.srid:
            yield '%s.args[%d]' % (part.place, shapes[0]), {'column': column, 'srid': srid, 'given': table.srid, 'option': srid % 2 ** 32}


def reduced_precision(part, table):
    if operator(part.value) in ('s_within', 's_overlaps', 's_touches') and len(geometry_columns(part)) == 1 and not table.open:
        yield part.place, {}
