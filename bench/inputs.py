"""The inputs of bench/run: filters, texts and rows of a bench's log, larger ones of the same kind, and the worst known."""
import os, random, struct, sys

sys.path.insert(0, os.path.join(os.path.dirname(os.path.abspath(__file__)), '..', 'tools'))
from generators.reading_edges import three_letter_names
from model import records
from model.limits import BRACKETS, CONTROLLER, PLANNER, SQL, STR, VALUE
from model.lowering import text
from model.records import SHEET_SETTINGS, encode, settings_record
from model.strings import quoted

SETTINGS = settings_record(SHEET_SETTINGS)


def name(n): return ('id', n)
def num(m, s=0): return ('num', m, s)
def word(s, flags=0): return ('str', flags, s)
def two(op, x, y): return ('dyadic', op, x, y)
def one(op, x): return ('monadic', op, x)
def span(x, y): return ('interval', x, y)
def row(cells): return records.row([(n.encode(), None if v is None else v.encode()) for n, v in cells])


ENTERED, EXITED, LABEL, MASS = map(name, ('entered', 'exited', 'label', 'mass'))
OPEN, DAY = ('unbounded',), ('date', 2024, 2, 29)
STAY, MONTH = span(ENTERED, EXITED), span(('date', 2024, 1, 1), ('date', 2024, 1, 31))
POLYGON = ('spatial', 4326, 'POLYGON((-10 -10,10 -10,10 10,-10 10,-10 -10))')

TIME_FILTERS = [
    two('And', two('And', two('TAfter', STAY, MONTH), two('Eq', LABEL, word('bolt'))), one('IsNotNull', ENTERED)),
    two('TDisjoint', DAY, STAY),
    two('TIntersects', STAY, span(DAY, OPEN)),
    two('Or', two('TDuring', STAY, MONTH), two('TMeets', STAY, MONTH)),
    one('Neg', two('TBefore', ENTERED, ('timestamp', 2024, 2, 29, 10, 0, 0))),
    two('And', two('Gte', ENTERED, word('2024-01-01')), two('Lt', EXITED, DAY)),
    two('TOverlaps', STAY, MONTH),
    two('TEquals', ENTERED, DAY)]

NOON, MONDAY = ('timestamp', 2024, 2, 29, 12, 0, 0), span(('timestamp', 2024, 1, 1, 0, 0, 0), ('timestamp', 2024, 1, 1, 23, 59, 59))
STAMP_FILTERS = [    # of the same kinds, about DATETIME columns
    two('And', two('And', two('TAfter', STAY, MONDAY), two('Eq', LABEL, word('bolt'))), one('IsNotNull', ENTERED)),
    two('TDisjoint', NOON, STAY),
    two('TIntersects', STAY, span(NOON, OPEN)),
    two('Or', two('TDuring', STAY, MONDAY), two('TMeets', STAY, MONDAY)),
    one('Neg', two('TBefore', ENTERED, NOON)),
    two('And', two('Gte', ENTERED, NOON), two('Lt', EXITED, ('timestamp', 2024, 3, 1, 0, 0, 0))),
    two('TOverlaps', STAY, MONDAY),
    two('TEquals', ENTERED, NOON)]

NOT_ENDED = span(ENTERED, OPEN)
NOT_ENDED_FILTERS = [    # stays that have not ended
    two('And', one('IsNull', EXITED), two('TIntersects', NOT_ENDED, MONDAY)),
    one('Neg', two('TAfter', NOON, NOT_ENDED)),
    two('TDisjoint', STAY, NOT_ENDED),
    two('Or', two('TContains', NOT_ENDED, MONDAY), two('TEquals', NOT_ENDED, span(NOON, OPEN)))]

MIXED_FILTERS = [
    two('Or', two('And', two('TDisjoint', ENTERED, MONTH), two('Lte', MASS, num(1250, 2))), two('IsInList', name('shelf'), ('array', [num(n) for n in range(1, 5)]))),
    two('And', two('And', two('Eq', name('road_class'), word('motorway')), two('IsBetween', name('depth'), ('array', [num(1000, 1), num(15055, 2)]))),
        two('Or', two('SWithin', name('geom'), POLYGON), two('TAfter', STAY, span(('date', 1969, 7, 16), OPEN)))),
    two('And', two('IsLike', one('CaseI', LABEL), word('bol%', 1)), two('IsNotInList', name('shelf'), ('array', [word('top'), word('left')]))),
    two('And', two('Gt', ('function', 'avg', [MASS, num(15, 1)]), num(0)), one('Neg', one('IsNull', LABEL))),
    two('Eq', two('Plus', MASS, two('Mult', num(2), name('depth'))), num(-725, 2)),
    two('AContains', name('tags'), ('array', [word('steel'), word('m6'), word('hex')])),
    two('And', two('SIntersects', name('geom'), POLYGON), two('Eq', one('AccentI', one('CaseI', LABEL)), word('rivet', 3))),
    two('Or', two('IsNotLike', LABEL, word('%x')), two('Neq', name('shelf'), ('bool', 1)))]

ITEM = two('And', two('Eq', ENTERED, word('some label')), two('TIntersects', STAY, MONTH))


def filled(make, items, size):
    """make(n items) with as many items as the size permits, the items taken in turn."""
    n, used = 0, len(encode(make([])))
    while used + len(encode(items[n % len(items)])) <= size:
        used += len(encode(items[n % len(items)]))
        n += 1
    return make([items[k % len(items)] for k in range(n)])


def balanced(items, op='And'):
    if len(items) == 1:
        return items[0]
    half = len(items) // 2
    return two(op, balanced(items[:half], 'Or'), balanced(items[half:]))


def large(size):
    """Three trees of about this size: a list of time filters, Ands and Ors over mixed filters, a list of numbers."""
    short = size - 400
    mixed, used = [], 0
    while used + len(encode(MIXED_FILTERS[len(mixed) % 8])) + 8 <= short:
        used += len(encode(MIXED_FILTERS[len(mixed) % 8])) + 8
        mixed.append(MIXED_FILTERS[len(mixed) % 8])
    return [filled(lambda x: ('array', x), [ITEM], size), balanced(mixed),
            filled(lambda x: two('IsInList', MASS, ('array', x)), [num(125, 1), num(70001), num(-3, 2)], size)]


def nested(op, levels, leaf, side):
    for _ in range(levels):
        leaf = two(op, leaf, side)
    return leaf


CELLS = [('fid', '17'), ('label', 'bolt'), ('shelf', 'top'), ('mass', '12.5'), ('entered', '2024-02-03'), ('exited', None)]
LEFT = CELLS[:-1] + [('exited', '2024-02-20')]    # the same stay after its end: some of the texts are then true
MORE = [('c%d' % n, 'value %d' % n) for n in range(54)]
TEXTS = [text(SHEET_SETTINGS, t) for t in TIME_FILTERS]


def repeated(part, glue, size):
    return glue.join([part] * ((size + len(glue)) // (len(part) + len(glue))))


def names(count, order):
    """A row of columns without values, three letters each."""
    made = [x.decode() for x in three_letter_names(count)]
    if order == 'mixed':
        random.Random(7).shuffle(made)
    return [(x, None) for x in (reversed(made) if order == 'down' else made)]


def table(cells):
    values = ['NULL' if v is None else quoted(v) for _, v in cells]
    return 'CREATE TABLE t (%s); INSERT INTO t VALUES (%s);' % (', '.join('"%s" TEXT' % n for n, _ in cells), ', '.join(values))


PREVIEW = {'L': 'P', 'G': 'Q'}    # of a call that writes


def lowering(trees, call='L'):
    return call, [(SETTINGS, encode(t), b'', b'') for t in trees]


def reading(texts, cells, ask=True):
    """With what SQLite needs, where it is asked too: a wide row is none of its tables."""
    query = 'SELECT 1 FROM t WHERE '
    return 'R', [(t.encode(), row(cells), *((table(cells).encode(), (query + t).encode()) if ask else (b'', b''))) for t in texts]


def both(texts, more=[]):
    """Each text on a stay that is open, and on one that has ended."""
    return 'R', reading(texts, CELLS + more)[1] + reading(texts, LEFT + more)[1]


def growth():
    """Label, the input, and one of ten times the size."""
    listed = lambda items: lowering([two('IsInList', MASS, ('array', items))])
    test = "entered>='2024-01-01'"
    return [
        ('lowering, 26 and 260 time filters', listed([ITEM] * 26), listed([ITEM] * 260)),
        ('lowering, 210 and 2,100 numbers', listed([num(125, 1)] * 210), listed([num(125, 1)] * 2100)),
        ('reading, 250 and 2,500 tests', reading([' AND '.join([test] * 250)], CELLS, False), reading([' AND '.join([test] * 2500)], CELLS, False)),
        ('reading, row of 297 and 2,970 names', reading(['TRUE'], names(297, 'mixed'), False), reading(['TRUE'], names(2970, 'mixed'), False))]


def worst():
    """Label and input."""
    huge = filled(lambda x: ('array', x), [ITEM], PLANNER.tree - 100)
    side = span(name('b'), name('c'))
    doubled = nested('TDisjoint', 29, name('a'), side)
    down = names(2970, 'down')
    mixed = [n for n, _ in names(2970, 'mixed')] * 5
    asked = ' OR '.join('%s=%s' % pair for pair in zip(mixed[::2], mixed[1::2]))[:SQL].rsplit(' OR ', 1)[0]
    long = ['n' * 61 + n for n, _ in names(442, 'mixed')]
    alike = ' OR '.join('%s=%s' % pair for pair in zip(long * 3, long[7:] * 3))[:SQL].rsplit(' OR ', 1)[0]
    brackets = '(' * BRACKETS + 'TRUE' + ')' * BRACKETS
    return [
        ('29 TDisjoint inside one another', lowering([doubled])),
        ('an unwritten end of 32 KB', lowering([two('TAfter', name('a'), span(huge, name('b')))])),
        ('5,300 empty arrays, 32 deep', lowering([deep_arrays()])),
        ('3,276 names, each sought in the keywords', lowering([('array', [name('temr')] * 3276)])),
        ('32 KB, wrong in the last record', lowering_of(spoilt(encode(huge)))),
        ('row of 2,970 names, last first', reading(['TRUE'], down, False)),
        ('the same, a text of 11,900 names', reading([asked], down, False)),
        ('442 names alike in 61 of 64 bytes', reading([alike], [(n, None) for n in long], False)),
        ('14,564 such names in a text', reading([repeated('ov=ov', ' OR ', SQL)], [('ov', None)], False)),
        ('64 brackets, 481 times', reading([repeated(brackets, ' OR ', SQL)], CELLS, False)),
        ('16,382 NOTs', reading(['NOT ' * 16382 + 'TRUE'], CELLS, False)),
        ('one quoted text of 64 KB', reading(["'%s'=mass" % ('x' * (SQL - 7))], CELLS, False)),
        ('a Str of 4,096 apostrophes', lowering([MARKS])),
        ('7 of them: a text of 57,372 bytes', lowering([('array', [MARKS] * 7)])),
        ('a Str of 1,024 four-byte characters', lowering([word('🔩' * (STR // 4))])),
        ('28 KB of two-byte characters, the last cut', lowering_of(records.array(*[records.string('é'.encode() * (STR // 2))] * 7, records.string(b'\xc3')))),
        ('a quoted text of 32,764 apostrophes', reading(['%s=mass' % quoted("'" * 32764)], CELLS, False)),
        ('the same against a value of 64', reading(['%s=mark' % quoted("'" * 32764)], MARKED, False)),
        ('1,110 tests of 24 apostrophes', reading([repeated('mark>' + quoted("'" * 24), ' OR ', SQL)], MARKED, False)),
        ('one quoted text of 64 KB, four-byte characters', reading(["'%s'=mass" % ('🔩' * ((SQL - 7) // 4))], CELLS, False)),
        ('row of 420 values of 64 bytes, four-byte characters', reading(['TRUE'], [(n, '🔩' * (VALUE // 4)) for n, _ in names(420, 'mixed')], False)),
        ('controller, 6 TDisjoint about 270 empty arrays', lowering([nested('TDisjoint', 6, ('array', [('array', [])] * 270), side)], 'l')),
        ('controller, 5 TEquals about 5 long numbers', lowering([nested('TEquals', 5, ('array', [num(1 - 10 ** 15, 9)] * 5), side)], 'l')),
        ('controller, 199 names, each sought in the keywords', lowering([('array', [name('temr')] * 199)], 'l'))]


MARKS = word("'" * STR)
MARKED = CELLS + [('mark', "'" * VALUE)]
STRINGS = [('ASCII', 'O-Ring 5 mm, left flange no. 3'), ('accents', 'Öse 5 mm, Flügel außen, n° 3'), ('four-byte characters', '🔩🔩🔩🔩🔩 5 mm'),
           ('apostrophes', "O'Ring 5 mm, 3' left o' flange")]


def strings():
    """Label, input, and whether the other sides take part: filters on a label of each sort. The Rust does not double an apostrophe."""
    made = []
    for told, label in STRINGS:
        trees = [two('Eq', LABEL, word(label)), two('IsInList', LABEL, ('array', [word('%s/%d' % (label, k)) for k in range(8)])),
                 two('And', two('Eq', LABEL, word(label, 1)), two('Gte', ENTERED, word('2024-01-01')))]
        made.append(('lowering, ' + told, lowering(trees), told != 'apostrophes'))
    for told, label in STRINGS:
        texts = [text(SHEET_SETTINGS, t) for t in (two('Eq', LABEL, word(label)), two('Lt', LABEL, word(label + ' x')),
                                                   two('Or', two('Eq', LABEL, word(label[1:])), two('Neq', word(label), LABEL)))]
        made.append(('reading, ' + told, reading(texts, [(n, label if n == 'label' else v) for n, v in CELLS]), True))
    return made


def lowering_of(tree):
    """A tree as bytes, right or not."""
    return 'L', [(SETTINGS, tree, b'', b'')]


def deep_arrays():
    wrapped = ('array', [('array', [])] * 5300)
    for _ in range(30):
        wrapped = ('array', [wrapped])
    return wrapped


def spoilt(tree):
    """The last record's last byte is the day of a date."""
    return tree[:-1] + b'\0'


def checked():
    """Trees that are refused with 7 after all records were read: what the check alone costs."""
    wrong = span(ENTERED, EXITED)
    days = filled(lambda x: ('array', x), [('date', 2023, month, 28) for month in range(1, 13)], PLANNER.tree - 100)
    return [('a mixed filter', lowering([two('And', MIXED_FILTERS[1], wrong)])),
            ('a 32 KB tree', lowering([two('And', large(PLANNER.tree - 100)[0], wrong)])),
            ('32 KB of dates, every month', lowering([two('And', days, wrong)]))]


def stamped():
    """Label, and the same trees by the first call, in which the Rust takes part, and by the second."""
    listed, ended = two('IsInList', ENTERED, ('array', [NOON] * 1800)), ('array', [two('TAfter', ENTERED, span(OPEN, OPEN))] * 700)
    return [(label, lowering(trees), lowering(trees, 'G')) for label, trees in (
        ('time filters with timestamps', STAMP_FILTERS), ('time filters, mostly dates', TIME_FILTERS), ('mixed filters, no timestamp', MIXED_FILTERS),
        ('1,800 timestamps', [listed]), ('stays that have not ended', NOT_ENDED_FILTERS), ('700 open ends', [ended]))]


def previewed():
    """Label, the trees by a call that writes, and by its preview: filters, large trees, those that are refused after the check and after counting."""
    refused, long = dict(checked())['a 32 KB tree'], dict(worst())['29 TDisjoint inside one another']
    return [(label, case, (PREVIEW[case[0]], case[1])) for label, case in (
        ('time filters', lowering(TIME_FILTERS)), ('mixed filters', lowering(MIXED_FILTERS)), ('32 KB trees', lowering(large(PLANNER.tree))),
        ('stays that have not ended, 2nd call', lowering(NOT_ENDED_FILTERS, 'G')), ('a 32 KB tree that is refused, 7', refused),
        ('29 TDisjoint, refused with 8', long))]


def controlled():
    """Label, and the same trees by a call of the planner's and of the controller's: filters that both accept, and some that are refused."""
    listed, _, numbers = large(CONTROLLER.tree)
    longer = [listed, balanced(MIXED_FILTERS), numbers]    # of 2, 1 and 2 KB; more filters would be more than 8 levels deep
    wrong = two('And', large(CONTROLLER.tree - 100)[0], span(ENTERED, EXITED))
    return [(label, case, (case[0].lower(), case[1])) for label, case in (
        ('time filters', lowering(TIME_FILTERS)), ('mixed filters', lowering(MIXED_FILTERS)), ('trees of 1 to 2 KB', lowering(longer)),
        ('stays that have not ended, 2nd call', lowering(NOT_ENDED_FILTERS, 'G')), ('previews, time filters', lowering(TIME_FILTERS, 'P')),
        ('previews, trees of 1 to 2 KB, 2nd call', lowering(longer, 'Q')), ('a 2 KB tree that is refused, 7', lowering([wrong])))]


TRAY = name('tray')
GIVEN, LEFT_OUT = two('Or', one('IsNull', word('left')), two('Eq', TRAY, word('left'))), two('Or', one('IsNull', ('null',)), two('Eq', TRAY, ('null',)))
UNREDUCED_FILTERS = [    # as a template has them, some of its parameters left out
    two('And', two('TAfter', ENTERED, DAY), LEFT_OUT),
    two('And', two('And', two('TIntersects', STAY, MONTH), LEFT_OUT), two('Or', one('IsNull', ('null',)), two('Gte', MASS, ('null',)))),
    two('And', two('TDisjoint', ('date', 2024, 1, 31), NOON), two('Eq', one('CaseI', one('CaseI', LABEL)), one('CaseI', word('bolt')))),
    one('Neg', two('And', two('TBefore', NOON, DAY), GIVEN))]


def reduced():
    """Label, the trees by the first call, by reducing, and whether the Rust takes part: filters that stay, filters that reduce, large trees and deep ones."""
    folds = lambda ops, leaf: leaf if not ops else one(ops[0], folds(ops[1:], leaf))
    negs = ('array', [one('Neg', ('bool', 1))] * 2184)
    wide = filled(lambda x: ('array', x), UNREDUCED_FILTERS, PLANNER.tree)
    constant = ('array', filled(lambda x: ('array', x), [ITEM], PLANNER.tree - 100)[1] + [two('Eq', num(1), num(1))])
    return [(label, lowering(trees), lowering(trees, 'T'), versus) for label, trees, versus in (
        ('time filters', TIME_FILTERS, 1), ('mixed filters', MIXED_FILTERS, 1), ('32 KB trees', large(PLANNER.tree), 1),
        ('filters with parameters left out', UNREDUCED_FILTERS, 1), ('32 KB of these', [wide], 1), ('2,184 of NOT TRUE', [negs], 1),
        ('31 of CaseI and AccentI over a Str of 4,000', [folds(['CaseI', 'AccentI'] * 15 + ['CaseI'], word('y' * 4000))], 1),
        ('31 of CaseI over a column', [folds(['CaseI'] * 31, LABEL)], 1), ('31 of Neg over a column', [folds(['Neg'] * 31, LABEL)], 1),
        ('32 KB, a 14 at its end', [constant], 0))]


def compared():
    """Label and input, of which the other sides take part."""
    return [('time filters', lowering(TIME_FILTERS)), ('mixed filters', lowering(MIXED_FILTERS)), ('32 KB trees', lowering(large(PLANNER.tree)))], [
        ('small texts, 6 columns', both(TEXTS)), ('small texts, 60 columns', both(TEXTS, MORE)),
        ('text of 2 KB, 6 columns', reading([' OR '.join('(%s)' % t for t in TEXTS * 3)], CELLS))]


def write(path, cases):
    """For the drivers. cases: (kind, list of four byte strings), and whether the other sides take part."""
    with open(path, 'wb') as f:
        for (kind, ones), versus in cases:
            f.write(kind.encode() + bytes([versus]) + struct.pack('<I', len(ones)))
            for parts in ones:
                for p in parts:
                    f.write(struct.pack('<I', len(p)) + p)
