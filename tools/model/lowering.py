"""The SQL text of an accepted tree: `to_sql_impl`, the fifteen `t_…_sql`, `reduce_precision` and `qstr_to_sql` of src/ds/gpkg.rs as document 01
has them ("Atoms and the four ends", "The lowering"); one lowering for both writings, of a timestamp and of an Interval's open end (document 02, slips
4 and 5)."""
import sys

from . import operators
from .operators import SPELLING
from .records import Settings
from .strings import quoted

RUST, GEOPACKAGE = 'rust', 'geopackage'    # the writings: the Rust's text; timestamps as a GeoPackage stores them
AFTER_SECONDS = {RUST: '', GEOPACKAGE: '.000Z'}
LITERALS = 'bool', 'num', 'str', 'date', 'timestamp', 'spatial'
OPEN_START = quoted('-2021-01-01')    # and `..` in any other place, but as the second end of an Interval
OPEN_END = {RUST: OPEN_START, GEOPACKAGE: quoted('A')}    # `..` as that end
COMPARED = {    # of two intervals: the ends' comparisons, all of which hold
    'TContains': ((0, '<', 2), (1, '>', 3)), 'TDuring': ((0, '>', 2), (1, '<', 3)),
    'TFinishedBy': ((0, '<', 2), (1, '=', 3)), 'TFinishes': ((0, '>', 2), (1, '=', 3)),
    'TOverlappedBy': ((0, '>', 2), (0, '<', 3), (1, '>', 3)), 'TOverlaps': ((0, '<', 2), (1, '>', 2), (1, '<', 3)),
    'TStartedBy': ((0, '=', 2), (1, '>', 3)), 'TStarts': ((0, '=', 2), (1, '<', 3))}


def text(settings, tree, writing=RUST):
    return Writer(settings, writing=writing).text(tree)


def is_literal(tree):
    return tree[0] in LITERALS or tree[0] == 'array' and all(map(is_literal, tree[1]))


def is_literal_or_id(tree):
    return is_literal(tree) or tree[0] == 'id'


def bracketed(bare, written):
    return written if bare else '(' + written + ')'


class Writer:
    """One method for each kind. Of a text longer than `most` characters, each a byte or more, no more than that is kept, at each node: ends that are
    written twice at each of 30 levels would fill the memory."""

    def __init__(self, settings, most=sys.maxsize, writing=RUST):
        self.settings, self.most, self.writing = Settings(*settings), most, writing

    def text(self, tree):
        return getattr(self, tree[0])(*tree[1:])[:self.most]

    def null(self):
        return 'NULL'

    def unbounded(self):
        return OPEN_START

    def bool(self, value):
        return 'TRUE' if value else 'FALSE'

    def num(self, m, s):
        """m ÷ 10^s as exact decimal, closing zeros of the fraction dropped."""
        digits = ('%d' % abs(m)).rjust(s + 1, '0')
        whole, fraction = digits[:len(digits) - s], digits[len(digits) - s:].rstrip('0')
        return ('-' if m < 0 else '') + whole + ('.' + fraction if fraction else '')

    def str(self, flags, value):
        """The flags' bits: ignore case, ignore accents."""
        return quoted(value) + (' COLLATE ' + self.settings[flags] if flags else '')

    def date(self, *fields):
        return quoted('%04d-%02d-%02d' % fields)

    def timestamp(self, *fields):
        return quoted('%04d-%02d-%02dT%02d:%02d:%02d' % fields + AFTER_SECONDS[self.writing])

    def spatial(self, srid, value):
        return "ST_GeomFromText('%s', %d)" % (value, srid)

    def id(self, name):
        return name

    def function(self, name, items):
        return name + self.array(items)

    def array(self, items):
        return '(' + ', '.join(map(self.text, items)) + ')'

    def monadic(self, operator, tree):
        if operator in ('CaseI', 'AccentI'):
            return self.collated(operator, tree)
        written = bracketed(is_literal_or_id(tree), self.text(tree))
        if operator in ('IsNull', 'IsNotNull'):
            return written + ' ' + SPELLING[operator]
        return SPELLING[operator] + ' ' + written

    def collated(self, operator, tree):
        """Each of the two directly inside the other makes one collation."""
        if tree[0] == 'monadic' and {operator, tree[1]} == {'CaseI', 'AccentI'}:
            return self.text(tree[2]) + ' COLLATE ' + self.settings.cai
        return self.text(tree) + ' COLLATE ' + (self.settings.ci if operator == 'CaseI' else self.settings.ai)

    def dyadic(self, operator, left, right):
        if operator in operators.TEMPORAL:
            return self.temporal(operator, left, right)
        spelling = SPELLING[operator]
        if operator in operators.BETWEEN:
            return '%s %s %s AND %s' % (self.text(left), spelling, *map(self.text, right[1]))
        if operator in operators.SPATIAL:
            return '%s(%s, %s)' % (spelling, *self.reduced(operator, left, right))
        if operator in operators.ARRAY:
            return '%s %s %s' % (self.text(left), spelling, self.text(right))
        bare = is_literal_or_id(right) and operator not in operators.LIKE
        return '%s %s %s' % (bracketed(is_literal_or_id(left), self.text(left)), spelling, bracketed(bare, self.text(right)))

    def reduced(self, operator, left, right):
        """Both sides; the precision of a column is reduced where the other side is none."""
        one = (left[0] == 'id') != (right[0] == 'id') and operator in operators.REDUCED
        return ['ST_ReducePrecision(%s, 1E-%d)' % (self.text(t), self.settings.precision) if one and t[0] == 'id' else self.text(t)
                for t in (left, right)]

    def temporal(self, operator, left, right):
        ends = Ends(self, left, right)
        if operator in COMPARED:
            return ends.all(COMPARED[operator])
        return getattr(ends, operator)()


class Ends:
    """The four ends e0, e1, e2, e3 of two operands, and the conditions over them; an instant fills e0 or e2, and Null its partner."""

    def __init__(self, writer, left, right):
        self.spans = left[0] == 'interval', right[0] == 'interval'
        self.trees = [end for tree in (left, right) for end in (tree[1:] if tree[0] == 'interval' else (tree, ('null',)))]
        self.written = [self.end(writer, slot, tree) for slot, tree in enumerate(self.trees)]
        self.last = 1 if self.spans[0] else 0, 3 if self.spans[1] else 2    # of each operand; its first is e0, e2

    def end(self, writer, slot, tree):
        """How an end is written, by its slot: 1 and 3 are second ends, where an instant has Null."""
        return OPEN_END[writer.writing] if tree == ('unbounded',) and slot in (1, 3) else writer.text(tree)

    def test(self, i, sign, j):
        return '%s %s %s' % (self.written[i], sign, self.written[j])

    def all(self, tests):
        return ' AND '.join('(%s)' % self.test(*test) for test in tests)

    def guarded(self, slots, base):
        """`check_ids`: only columns are guarded, and only by the ends of intervals."""
        names = [self.trees[slot][1] for slot in slots if self.spans[slot // 2] and self.trees[slot][0] == 'id']
        if not names:
            return base
        return '"%s" IS NOT NULL AND %s(%s)' % (names[0], ''.join('"%s" NOT NULL AND ' % name for name in names[1:]), base)

    def before(self):
        return self.test(self.last[0], '<', 2)

    def after(self):
        return self.test(0, '>', self.last[1])

    def TAfter(self):
        return self.guarded((1, 2), self.after())

    def TBefore(self):
        return self.guarded((0, 3), self.before())

    def TDisjoint(self):
        if not any(self.spans):
            return self.test(0, '!=', 2)
        return '(%s) OR (%s)' % (self.TBefore(), self.TAfter())

    def TEquals(self):
        if not any(self.spans):
            return self.test(0, '=', 2)
        return self.all(((0, '=', 2), (self.last[0], '=', self.last[1])))

    def TIntersects(self):
        """NOT of TDisjoint without its guards."""
        if not any(self.spans):
            return self.test(0, '=', 2)
        return 'NOT((%s) OR (%s))' % (self.before(), self.after())

    def TMeets(self):
        return self.guarded((0, 3), self.test(1, '=', 2))

    def TMetBy(self):
        return self.guarded((1, 2), self.test(0, '=', 3))
