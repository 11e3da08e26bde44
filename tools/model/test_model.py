"""Tests of the model: document 01's sheets and its own examples, by hand, and that it stands by itself.

  python3 -m unittest discover -s tools     all tests of the command, of the programs and of the model"""
import ast
import itertools
import os
import re
import unittest

from model import c as c_numbers, calls, lowering, names, records, reduction, strings
from model.limits import CONTROLLER, PLANNER
from model.records import SHEET_SETTINGS, array, dyadic, encode, ident, interval, monadic, null, row, settings_record

SETTINGS = settings_record(SHEET_SETTINGS)
A, B, C, D, G, H = (('id', name) for name in 'abcdgh')
NULL, OPEN, ONE, TWO, X = ('null',), ('unbounded',), ('num', 1, 0), ('num', 2, 0), ('str', 0, 'x')
TEXTS = [    # sheets A to M
    (NULL, 'NULL'), (('num', -5, 1), '-0.5'), (('num', 1500, 2), '15'), (('dyadic', 'Eq', A, NULL), 'a = (NULL)'),
    (('dyadic', 'IsInList', A, ('array', [ONE, TWO])), 'a IN (1, 2)'), (('dyadic', 'IsInList', A, ('array', [B, TWO])), 'a IN ((b, 2))'),
    (('dyadic', 'IsLike', A, X), "a LIKE ('x')"), (('monadic', 'CaseI', ('monadic', 'AccentI', A)), 'a COLLATE NCA'),
    (('dyadic', 'TAfter', ('interval', A, B), ('interval', C, D)), '"b" IS NOT NULL AND "c" NOT NULL AND (a > d)'),
    (('dyadic', 'TDisjoint', A, ('interval', B, C)), '("c" IS NOT NULL AND (a < b)) OR ("b" IS NOT NULL AND (a > c))'),
    (('dyadic', 'TIntersects', ('date', 2024, 2, 29), ('interval', OPEN, C)), "NOT(('2024-02-29' < '-2021-01-01') OR ('2024-02-29' > c))"),
    (('dyadic', 'SWithin', G, ('spatial', 4326, 'POINT (1 2)')),
     "ST_Within(ST_ReducePrecision(g, 1E-7), ST_GeomFromText('POINT (1 2)', 4326))"),
    (('dyadic', 'SWithin', G, H), 'ST_Within(g, h)'),
    (('timestamp', 2024, 2, 29, 1, 2, 3), "'2024-02-29T01:02:03'"), (('dyadic', 'TDisjoint', A, B), 'a != b'),
    (('dyadic', 'AEquals', ('array', []), ('array', [])), '() = ()'), (('num', 0, 9), '0'), (('str', 0, "O'Ring"), "'O''Ring'"),
    (('str', 0, "'"), "''''"), (('str', 0, ''), "''"), (('str', 3, "''"), "'''''' COLLATE NCA"), (('str', 1, 'Flügel'), "'Flügel' COLLATE NC")]
STAMP, DAY = ('timestamp', 2024, 1, 1, 0, 0, 0), ('date', 2024, 1, 1)
WRITTEN, LONGER = "'2024-01-01T00:00:00'", "'2024-01-01T00:00:00.000Z'"
LIKE_STAMPS = '2024-01-01T00:00:00', '2024-01-01T00:00:00.000Z', "'2024-01-01T00:00:00'"
STAMPS = [    # timestamps in every place of a tree; each % is one as it is written
    (STAMP, '%'), (('dyadic', 'Eq', A, STAMP), 'a = %'), (('dyadic', 'IsInList', A, ('array', [STAMP, STAMP])), 'a IN (%, %)'),
    (('dyadic', 'IsInList', A, ('array', [B, STAMP])), 'a IN ((b, %))'), (('dyadic', 'IsBetween', STAMP, ('array', [STAMP, STAMP])), '% BETWEEN % AND %'),
    (('dyadic', 'IsLike', STAMP, STAMP), '% LIKE (%)'), (('monadic', 'Neg', STAMP), 'NOT %'), (('monadic', 'IsNull', STAMP), '% IS NULL'),
    (('monadic', 'CaseI', STAMP), '% COLLATE NC'), (('function', 'f', [A, STAMP, ('array', [STAMP])]), 'f(a, %, (%))'),
    (('dyadic', 'AEquals', ('array', [STAMP]), A), '(%) = a'), (('dyadic', 'SWithin', G, STAMP), 'ST_Within(ST_ReducePrecision(g, 1E-7), %)'),
    (('dyadic', 'TAfter', A, STAMP), 'a > %'), (('dyadic', 'TDisjoint', STAMP, STAMP), '% != %'),
    (('dyadic', 'TAfter', ('interval', STAMP, B), ('interval', C, STAMP)), '"b" IS NOT NULL AND "c" NOT NULL AND (% > %)'),
    (('dyadic', 'TIntersects', A, ('interval', STAMP, STAMP)), 'NOT((a < %) OR (a > %))'),
    (('dyadic', 'TEquals', STAMP, ('interval', OPEN, STAMP)), "(% = '-2021-01-01') AND (% = %)"),
    (('dyadic', 'TDuring', ('interval', ('function', 'f', [STAMP]), DAY), ('interval', NULL, STAMP)), "(f(%) > NULL) AND ('2024-01-01' < %)"),
    (DAY, "'2024-01-01'"), (OPEN, "'-2021-01-01'"), (X, "'x'"), (('spatial', 4326, 'POINT (1 2)'), "ST_GeomFromText('POINT (1 2)', 4326)"),
    *((('str', 0, text), strings.quoted(text)) for text in LIKE_STAMPS)]
BELOW, ABOVE = "'-2021-01-01'", "'A'"
SINCE_A, SINCE_B, UNTIL_A, UNTIL_B = ('interval', A, OPEN), ('interval', B, OPEN), ('interval', OPEN, A), ('interval', OPEN, B)
ALWAYS = ('interval', OPEN, OPEN)
ENDS = [    # `..` in every place of a tree; each ^ is one as the second end of an Interval, each _ any other
    (('dyadic', 'TAfter', A, SINCE_B), '"b" IS NOT NULL AND (a > ^)'), (('dyadic', 'TBefore', SINCE_A, B), '"a" IS NOT NULL AND (^ < b)'),
    (('dyadic', 'TBefore', A, SINCE_B), 'a < b'), (('dyadic', 'TAfter', SINCE_A, B), 'a > b'),
    (('dyadic', 'TAfter', UNTIL_A, B), '"a" IS NOT NULL AND (_ > b)'),
    (('dyadic', 'TDisjoint', SINCE_A, UNTIL_B), '("a" IS NOT NULL AND "b" NOT NULL AND (^ < _)) OR (a > b)'),
    (('dyadic', 'TIntersects', A, SINCE_B), 'NOT((a < b) OR (a > ^))'), (('dyadic', 'TIntersects', ALWAYS, ALWAYS), 'NOT((^ < _) OR (_ > ^))'),
    (('dyadic', 'TEquals', SINCE_A, SINCE_B), '(a = b) AND (^ = ^)'), (('dyadic', 'TEquals', A, ALWAYS), '(a = _) AND (a = ^)'),
    (('dyadic', 'TEquals', OPEN, ALWAYS), '(_ = _) AND (_ = ^)'), (('dyadic', 'TDuring', UNTIL_A, SINCE_B), '(_ > b) AND (a < ^)'),
    (('dyadic', 'TOverlaps', UNTIL_A, ('interval', STAMP, OPEN)), '(_ < %) AND (a > %) AND (a < ^)'),
    (('dyadic', 'TMeets', SINCE_A, UNTIL_B), '"a" IS NOT NULL AND "b" NOT NULL AND (^ = _)'),
    (('dyadic', 'TMetBy', UNTIL_A, SINCE_B), '"a" IS NOT NULL AND "b" NOT NULL AND (_ = ^)'),
    (OPEN, '_'), (('array', [OPEN, OPEN]), '(_, _)'), (('function', 'f', [OPEN, ('array', [OPEN])]), 'f(_, (_))'), (('dyadic', 'Eq', A, OPEN), 'a = (_)'),
    (('dyadic', 'IsBetween', OPEN, ('array', [OPEN, OPEN])), '_ BETWEEN _ AND _'), (('dyadic', 'TAfter', A, OPEN), 'a > _'),
    (('dyadic', 'TEquals', OPEN, OPEN), '_ = _'), (('dyadic', 'TAfter', A, ('interval', B, ('function', 'f', [OPEN]))), '"b" IS NOT NULL AND (a > f(_))'),
    (('dyadic', 'TAfter', A, ('interval', B, ('array', [OPEN]))), '"b" IS NOT NULL AND (a > (_))'),
    (('dyadic', 'TAfter', A, ('interval', B, ('dyadic', 'TAfter', OPEN, OPEN))), '"b" IS NOT NULL AND (a > _ > _)'),
    (('dyadic', 'TAfter', A, ('interval', B, ('dyadic', 'TIntersects', C, ALWAYS))), '"b" IS NOT NULL AND (a > NOT((c < _) OR (c > ^)))'),
    (('function', 'f', [('dyadic', 'TAfter', A, ALWAYS), OPEN]), 'f(a > ^, _)'),
    *((('dyadic', 'TAfter', A, ('interval', B, ('str', 0, text))), '"b" IS NOT NULL AND (a > \'%s\')' % text) for text in ('A', '-2021-01-01', '..'))]
TABLE_3_7 = [    # of the Unicode standard: well-formed UTF-8 byte sequences
    rb'[\x00-\x7f]', rb'[\xc2-\xdf][\x80-\xbf]', rb'\xe0[\xa0-\xbf][\x80-\xbf]', rb'[\xe1-\xec][\x80-\xbf]{2}', rb'\xed[\x80-\x9f][\x80-\xbf]',
    rb'[\xee-\xef][\x80-\xbf]{2}', rb'\xf0[\x90-\xbf][\x80-\xbf]{2}', rb'[\xf1-\xf3][\x80-\xbf]{3}', rb'\xf4[\x80-\x8f][\x80-\xbf]{2}']
WELL_FORMED = re.compile(rb'(?:' + rb'|'.join(TABLE_3_7) + rb')*\Z')
EVERY = bytes(range(256))
EDGES = bytes(sorted({0, 0x20, 0x7f, 0xff} | {edge + step for edge in (0x80, 0x90, 0xa0, 0xc0) for step in (-1, 0)}))    # of the table's later bytes
LEADS = bytes(range(0xc0, 0x100))
ILL_FORMED = [    # a lone continuation, overlong forms, surrogates, above U+10FFFF, bytes that no sequence has, cut short at each place
    b'\x80', b'\xbf', b'a\x80', b'\xc3\xa9\xa9', b'\xc0\xa7', b'\xc1\xbf', b'\xe0\x9f\xbf', b'\xf0\x8f\xbf\xbf', b'\xed\xa0\x80', b'\xed\xbf\xbf',
    b'\xf4\x90\x80\x80', b'\xf5\x80\x80\x80', b'\xff', b'\xfe', b'\xc3', b'\xe2\x82', b'\xe2', b'\xf0\x9f\x94', b'\xf0\x9f', b'\xf0', b'\xc3a',
    b'\xe2\x82a', b'\xf0\x9f\x94a']
VALID = [b'', b"'", b"''", b"O'Ring", 'Flügel'.encode(), b'\xc2\x80', b'\xc2\x9f', b'\xdf\xbf', b'\xe0\xa0\x80', b'\xed\x9f\xbf', b'\xee\x80\x80',
         b'\xef\xbf\xbf', b'\xf0\x90\x80\x80', b'\xf4\x8f\xbf\xbf', b' ', b'~', b'\xf0\x9f\x94\xa9\'']
BYTES = [    # some trees as bytes, by hand
    (NULL, '020000000000'), (('num', -5, 1), '0b0000000300fbffffffffffffff01'), (A, '03000000080061'),
    (('dyadic', 'TAfter', A, ('interval', A, OPEN)), '1e0000000a001a00' '03000000080061' '0f0000000d00' '03000000080061' '020000000100')]


def nested(levels):
    tree = null()
    for _ in range(levels - 1):
        tree = monadic(7, tree)
    return tree


class Lowering(unittest.TestCase):
    def test_texts(self):
        for tree, text in TEXTS:
            self.assertEqual(lowering.text(SHEET_SETTINGS, tree), text)
            written = text.encode()
            self.assertEqual(calls.to_sql(SETTINGS, encode(tree), len(written)), written)
            self.assertEqual(calls.to_sql(SETTINGS, encode(tree), len(written) - 1), 9)

    def test_both_writings(self):
        """They differ in what stands after a timestamp's seconds, in `..` as the second end of an Interval, and in nothing else."""
        for tree, form in STAMPS + ENDS:
            for call, writing, stamp, end in ((calls.to_sql, lowering.RUST, WRITTEN, BELOW),
                                              (calls.to_geopackage_sql, lowering.GEOPACKAGE, LONGER, ABOVE)):
                written = form.replace('%', stamp)
                if (tree, form) in ENDS:    # a name of the others has a _
                    written = written.replace('^', end).replace('_', BELOW)
                self.assertEqual(lowering.text(SHEET_SETTINGS, tree, writing), written)
                self.assertEqual(call(SETTINGS, encode(tree), len(written)), written.encode())
                self.assertEqual(call(SETTINGS, encode(tree), len(written) - 1), 9)
        for tree, text in TEXTS:
            if tree[0] != 'timestamp':
                self.assertEqual(calls.to_geopackage_sql(SETTINGS, encode(tree), 200), text.encode())

    def test_bytes(self):
        self.assertEqual(SETTINGS.hex(), '0d0000006400' '07' '024e43' '024e41' '034e4341')
        for tree, written in BYTES:
            self.assertEqual(encode(tree).hex(), written)

    def test_a_text_is_cut_only_past_its_limit(self):
        for n, most in ((3, 5), (5, 5), (6, 5), (60, 5)):
            self.assertEqual(lowering.Writer(SHEET_SETTINGS, most).text(('id', 'n' * n)), 'n' * min(n, most))


class Refusals(unittest.TestCase):
    def refused(self, number, tree, settings=SETTINGS, room=100000):
        """By both calls that write."""
        for call in (calls.to_sql, calls.to_geopackage_sql):
            self.assertEqual(call(settings, tree, room), number)

    def test_each(self):
        a, b = ident(b'a'), ident(b'b')
        for number, tree in ((2, bytes(32769)), (3, b''), (3, null() + b'\0'), (3, b'\1\0\0\0\0\0'), (4, nested(33)), (5, records.record(14)),
                             (5, monadic(8, a)), (5, dyadic(7, a, b)), (6, ident(b'and')), (6, records.date(1900, 2, 29)),
                             (6, records.string(b'\t')), (6, records.string(b'\xc3')), (6, records.record(9, b'\7')), (7, interval(a, b)),
                             (7, dyadic(28, a, b)),
                             (7, dyadic(47, a, array(a)))):
            self.refused(number, tree)
        for settings in (b'', SETTINGS + b'\0', SETTINGS[:-1], records.settings_bytes(16, b'NC', b'NA', b'NCA'),
                         records.settings_bytes(7, b'NC', b'NA')):
            self.refused(1, null(), settings)

    def test_order(self):
        self.refused(1, bytes(32769), b'')
        self.refused(3, records.array(b'\0', interval(null(), null())))
        self.refused(6, array(ident(b'1'), records.record(14)))
        self.refused(5, array(records.record(14), ident(b'1')))
        self.refused(6, array(interval(null(), null()), ident(b'1')))
        self.refused(4, nested(33)[:-6] + records.record(14))

    def test_what_passes(self):
        for tree in (nested(32), records.date(2000, 2, 29), ident(b'n' * 64), records.string(b'x' * 4096, 3), records.string(b"'" * 4096),
                     records.num(10 ** 15 - 1, 9)):
            self.assertIsInstance(calls.to_sql(SETTINGS, tree, 100000), bytes)

    def test_tree_sizes(self):
        longest = records.string(b'x' * 4096)
        for size, number in ((32768, 9), (32769, 2)):
            tree = array(*[longest] * 7, records.string(b'x' * (size - 6 - 7 * len(longest) - 7)))
            self.assertEqual(len(tree), size)
            self.refused(number, tree, room=0)

    def test_text_sizes(self):
        """Three strings in an array of 12,300 bytes of text, written four times, and four strings more."""
        longest, tree = ('str', 0, 'x' * 4096), ('array', [('str', 0, 'x' * 4096)] * 3)
        for _ in range(2):
            tree = ('dyadic', 'TEquals', tree, ('interval', A, B))
        for size, number in ((3973, 9), (3974, 8)):
            self.refused(number, encode(('dyadic', 'And', tree, ('array', [longest] * 3 + [('str', 0, 'y' * size)]))), room=65534)

    def test_limits_count_bytes_as_written(self):
        """A Str of 4,096 apostrophes has a text of 8,194 bytes; seven of them, their collations and 4,032 apostrophes pass 65,535."""
        self.refused(6, records.string(b"'" * 4097))
        self.refused(6, records.string('é'.encode() * 2048 + b'x'))
        self.refused(9, records.string(b"'" * 4096), room=8193)
        for last, number in (("'" * 4031 + 'x', 9), ("'" * 4032, 8)):
            self.refused(number, encode(('array', [('str', 3, "'" * 4096)] * 7 + [('str', 3, last)])), room=65534)

    def test_limits_count_the_writing(self):
        """2,340 timestamps and a name: 65,535 and 65,536 bytes in the second writing, 53,835 and 53,836 in the first."""
        for name, number in (('thirteen_long', 9), ('fourteen_bytes', 8)):
            tree = encode(('array', [STAMP] * 2340 + [('id', name)]))
            self.assertEqual(calls.to_geopackage_sql(SETTINGS, tree, 65534), number)
            self.assertEqual(len(calls.to_sql(SETTINGS, tree, 65534)), 53822 + len(name))
            self.assertEqual(calls.to_sql(SETTINGS, tree, 53821 + len(name)), 9)
        self.assertEqual(calls.to_geopackage_sql(SETTINGS, encode(STAMP), len(WRITTEN)), 9)

    def test_open_ends_make_the_second_text_shorter(self):
        """65,535 and 65,536 bytes in the second writing, 86,005 and 86,006 in the first."""
        for size, number in ((21, 9), (22, 8)):
            tree = A
            for _ in range(11):
                tree = ('dyadic', 'TEquals', tree, ALWAYS)
            tree = ('dyadic', 'And', tree, ('str', 0, 'y' * size))
            self.assertEqual(calls.to_geopackage_sql(SETTINGS, encode(tree), 65534), number)
            self.assertEqual(calls.to_sql(SETTINGS, encode(tree), 65535), 8)
            self.assertEqual(len(lowering.text(SHEET_SETTINGS, tree)), 85984 + size)
        since = encode(('dyadic', 'TAfter', A, SINCE_B))
        self.assertEqual((calls.to_sql(SETTINGS, since, 30), len(calls.to_geopackage_sql(SETTINGS, since, 30))), (9, 29))

    def test_a_long_text(self):
        tree = A
        for _ in range(30):
            tree = ('dyadic', 'TEquals', tree, ('interval', B, C))
        self.refused(8, encode(tree), room=0)


class Previews(unittest.TestCase):
    SIZES = 65535, 65536, 2 ** 32, 2 ** 63, 2 ** 64 - 1    # which no text passes

    def test_lengths(self):
        """Of texts written by hand: 9 below the length, and from it on the length."""
        for tree, form in TEXTS + STAMPS:
            for writing, stamp in ((lowering.RUST, WRITTEN), (lowering.GEOPACKAGE, LONGER)):
                if tree[0] == 'timestamp' and tree != STAMP:
                    continue    # its form is the first writing's text
                n = len(form.replace('%', stamp).encode()) if (tree, form) in STAMPS else len(form.encode())
                for size in (0, n - 1):
                    self.assertEqual(calls.preview(SETTINGS, encode(tree), size, writing), (None, 9))
                for size in (n, n + 1, *self.SIZES):
                    self.assertEqual(calls.preview(SETTINGS, encode(tree), size, writing), (n, None))

    def test_open_ends(self):
        since = encode(('dyadic', 'TAfter', A, SINCE_B))    # "b" IS NOT NULL AND (a > ..)
        for writing, n in ((lowering.RUST, 39), (lowering.GEOPACKAGE, 29)):
            self.assertEqual([calls.preview(SETTINGS, since, size, writing) for size in (n - 1, n)], [(None, 9), (n, None)])

    def test_refusals_at_every_size(self):
        longer, apart = array(*[records.unbounded()] * 4368, ident(b'fourteen_bytes')), interval(null(), null())
        for number, settings, tree in ((1, b'', bytes(32769)), (2, SETTINGS, bytes(32769)), (3, SETTINGS, b''), (4, SETTINGS, nested(33)),
                                       (5, SETTINGS, records.record(14)), (6, SETTINGS, ident(b'and')), (7, SETTINGS, apart),
                                       (7, SETTINGS, dyadic(14, longer, apart)), (8, SETTINGS, longer)):
            for size in (0, 1, 100, *self.SIZES):
                for writing in (lowering.RUST, lowering.GEOPACKAGE):
                    self.assertEqual(calls.preview(settings, tree, size, writing), (None, number))

    def test_the_longest(self):
        longest = array(*[records.unbounded()] * 4368, ident(b'thirteen_long'))
        self.assertEqual(calls.preview(SETTINGS, longest, 65534), (None, 9))
        for size in self.SIZES:
            self.assertEqual(calls.preview(SETTINGS, longest, size), (65535, None))

    def test_numbers(self):
        for answer, size, said in ((b'NULL', 3, -9), (b'NULL', 4, 4), (b'NULL', 2 ** 64 - 1, 4), (7, 0, -7), (8, 0, -8), (8, 2 ** 64 - 1, -8)):
            self.assertEqual(c_numbers.preview(answer, size), said)


class Controller(unittest.TestCase):
    """2,000 bytes, 8 levels, 4,000 bytes of text (document 02, slip 7): numbers written here, not the model's."""

    def both(self, answer, tree, settings=SETTINGS, room=100000):
        """What the controller hears of either call, a length or a refusal, and its preview."""
        for writing in (lowering.RUST, lowering.GEOPACKAGE):
            heard = calls.to_sql(settings, tree, room, writing, CONTROLLER)
            self.assertEqual(heard if isinstance(heard, int) else (len(heard),), answer)
            self.assertEqual(calls.preview(settings, tree, room, writing, CONTROLLER), (None, heard) if isinstance(heard, int) else (len(heard), None))

    def test_limits(self):
        self.assertEqual((tuple(PLANNER), tuple(CONTROLLER)), ((32768, 32, 65535), (2000, 8, 4000)))
        opens = lambda name: array(*[records.unbounded()] * 266, ident(name))
        for answer, tree in (((1995,), records.string(b'x' * 1993)), (2, records.string(b'x' * 1994)), ((46,), nested(8)), (4, nested(9)),
                             ((4000,), opens(b'n' * 8)), (8, opens(b'n' * 9)), ((4000,), records.string(b"'" * 1993, 3))):
            self.both(answer, tree)
        self.both(8, records.string(b"'" * 1993, 3), records.settings_bytes(7, b'NC', b'NA', b'NCAI'))

    def test_order(self):
        long, broken = records.string(b'x' * 1994), bytes(2001)
        for answer, tree, settings in ((1, broken, b''), (2, broken, SETTINGS), (2, array(long), SETTINGS), (3, nested(9)[:-6], SETTINGS),
                                       (3, nested(9)[:-6] + b'\xff\0\0\0\0\0', SETTINGS), (4, nested(9)[:-6] + records.record(14), SETTINGS),
                                       (4, array(nested(8), ident(b'1')), SETTINGS), (6, array(ident(b'1'), nested(8)), SETTINGS),
                                       (4, array(interval(null(), null()), nested(8)), SETTINGS), (7, array(interval(null(), null()), nested(7)), SETTINGS)):
            for room in (0, 4000):
                self.both(answer, tree, settings, room)
        self.both((46,), nested(8), room=46)
        self.both(9, nested(8), room=45)
        self.both(8, array(*[records.unbounded()] * 267), room=4004)
        self.both(8, array(*[records.unbounded()] * 267), room=0)

    def test_each_writing_counts_its_own_text(self):
        stamps = encode(('array', [STAMP] * 142 + [('id', 'n' * 23)]))
        self.assertEqual(calls.to_geopackage_sql(SETTINGS, stamps, 4001, CONTROLLER), 8)
        self.assertEqual(len(calls.to_sql(SETTINGS, stamps, 4001, limit=CONTROLLER)), 142 * 23 + 25)

    def test_beside_the_planner(self):
        """Equal texts where both accept; else 2, 4, 8 or 9."""
        for tree, _ in TEXTS + STAMPS + ENDS:
            for writing in (lowering.RUST, lowering.GEOPACKAGE):
                planner = calls.to_sql(SETTINGS, encode(tree), 65535, writing)
                self.assertEqual(calls.to_sql(SETTINGS, encode(tree), 4000, writing, CONTROLLER), planner)
                self.assertEqual(calls.to_sql(SETTINGS, encode(tree), 0, writing, CONTROLLER), 9)


NO, YES, DAYS_NOON, NEXT = ('bool', 0), ('bool', 1), ('timestamp', 2024, 1, 1, 12, 0, 0), ('date', 2024, 1, 2)
PLACE = ('spatial', 4326, 'POINT (1 2)')
REDUCED = [    # trees, and what they are reduced to
    *((tree, tree) for tree in (NULL, OPEN, NO, YES, ONE, X, DAY, STAMP, PLACE, A, ('array', []), ('function', 'f', []))),
    (('monadic', 'Minus', NULL), NULL), (('monadic', 'Minus', ('num', 1500, 2)), ('num', -1500, 2)), (('monadic', 'Minus', ('num', 0, 9)), ('num', 0, 9)),
    (('monadic', 'Minus', ('monadic', 'Minus', ONE)), ONE), (('monadic', 'Minus', ('num', -999999999999999, 0)), ('num', 999999999999999, 0)),
    (('monadic', 'Neg', NULL), NULL), (('monadic', 'Neg', NO), YES), (('monadic', 'Neg', ('monadic', 'Neg', NO)), NO),
    (('monadic', 'IsNull', NULL), YES), (('monadic', 'IsNotNull', NULL), NO), (('monadic', 'IsNull', ('monadic', 'Neg', NULL)), YES),
    (('monadic', 'CaseI', ('str', 2, 'x')), ('str', 3, 'x')), (('monadic', 'AccentI', ('str', 1, 'x')), ('str', 3, 'x')),
    (('monadic', 'CaseI', ('monadic', 'CaseI', X)), ('str', 1, 'x')), (('monadic', 'CaseI', ('monadic', 'AccentI', X)), ('str', 3, 'x')),
    (('monadic', 'CaseI', ('monadic', 'CaseI', A)), ('monadic', 'CaseI', A)), (('monadic', 'AccentI', ('monadic', 'AccentI', A)), ('monadic', 'AccentI', A)),
    *((('monadic', operator, tree), ('monadic', operator, tree)) for operator, tree in (
        ('Minus', A), ('Minus', YES), ('Neg', ONE), ('IsNull', NO), ('IsNotNull', A), ('CaseI', NULL), ('AccentI', NULL), ('CaseI', ONE),
        ('Minus', ('monadic', 'Minus', A)), ('CaseI', ('monadic', 'AccentI', ('monadic', 'CaseI', A))))),
    (('dyadic', 'Eq', NULL, A), NULL), (('dyadic', 'Plus', ONE, NULL), NULL), (('dyadic', 'IsBetween', NULL, ('array', [A, B])), NULL),
    (('dyadic', 'TMeets', ('interval', A, NULL), ('interval', B, C)), ('dyadic', 'TMeets', ('interval', A, NULL), ('interval', B, C))),
    (('dyadic', 'IsInList', ONE, ('array', [('monadic', 'Minus', ONE)])), ('dyadic', 'IsInList', ONE, ('array', [('num', -1, 0)]))),
    (('dyadic', 'IsBetween', A, ('array', [('monadic', 'Neg', NULL), ('monadic', 'Minus', ONE)])),
     ('dyadic', 'IsBetween', A, ('array', [NULL, ('num', -1, 0)]))),
    (('function', 'f', [('monadic', 'Neg', YES), A]), ('function', 'f', [NO, A])), (('dyadic', 'Eq', A, ('monadic', 'Neg', YES)), ('dyadic', 'Eq', A, NO)),
    (('dyadic', 'TAfter', A, ('interval', ('monadic', 'Neg', NULL), OPEN)), ('dyadic', 'TAfter', A, ('interval', NULL, OPEN))),
    *((tree, tree) for tree in (('dyadic', 'And', A, NO), ('dyadic', 'Or', YES, A), ('dyadic', 'And', ONE, TWO))),
    *((('dyadic', 'TEquals', *pair), answer) for pair, answer in (
        ((DAY, STAMP), YES), ((STAMP, DAY), YES), ((DAY, DAYS_NOON), NO), ((OPEN, OPEN), YES), ((OPEN, DAY), NO), ((DAY, DAY), YES), ((DAY, NEXT), NO))),
    *((('dyadic', 'TIntersects', *pair), answer) for pair, answer in (((DAY, STAMP), YES), ((DAY, DAYS_NOON), NO), ((OPEN, OPEN), YES))),
    *((('dyadic', 'TDisjoint', *pair), answer) for pair, answer in (((DAY, STAMP), NO), ((DAY, DAYS_NOON), YES), ((OPEN, OPEN), NO), ((DAY, OPEN), YES))),
    *((('dyadic', 'TAfter', *pair), answer) for pair, answer in (
        ((DAYS_NOON, DAY), YES), ((NEXT, DAYS_NOON), YES), ((STAMP, DAY), NO), ((DAY, OPEN), YES), ((OPEN, DAY), NO))),
    *((('dyadic', 'TBefore', *pair), answer) for pair, answer in (
        ((DAY, DAYS_NOON), YES), ((DAYS_NOON, NEXT), YES), ((OPEN, DAY), YES), ((DAY, OPEN), NO), ((OPEN, OPEN), NO)))]
TABLES = {'And': 'FFF FNN FNT', 'Or': 'FNT NNT TTT'}    # the other side false, NULL, true; rows: one side likewise
CONSTANT = [    # trees that are a 14
    ('dyadic', 'Eq', ONE, ONE), ('dyadic', 'Plus', ONE, TWO), ('dyadic', 'IsLike', X, X), ('dyadic', 'SEquals', PLACE, PLACE), ('dyadic', 'AEquals', ONE, X),
    ('dyadic', 'Eq', DAY, STAMP), ('dyadic', 'TAfter', DAY, ONE), ('dyadic', 'TEquals', X, OPEN), ('dyadic', 'IsInList', ONE, OPEN), ('dyadic', 'Lt', YES, NO),
    ('dyadic', 'And', A, ('dyadic', 'Eq', ONE, ONE)), ('array', [A, ('dyadic', 'Eq', ONE, ('monadic', 'Minus', ONE))]),
    ('dyadic', 'Eq', ('dyadic', 'TEquals', DAY, DAY), YES), ('dyadic', 'Eq', NULL, ('dyadic', 'Eq', ONE, ONE)), ('dyadic', 'And', NO, ('dyadic', 'Eq', X, X))]


class Reduction(unittest.TestCase):
    def test_each(self):
        for tree, right in REDUCED:
            self.assertEqual(reduction.reduced(tree), right)
            self.assertEqual(reduction.reduced(right), right)
            self.assertEqual(calls.reduce(encode(tree), 200), encode(right))

    def test_tables(self):
        sides = {'F': NO, 'N': NULL, 'T': YES}
        for operator, table in TABLES.items():
            for (one, left), answers in zip(sides.items(), table.split()):
                for (_, right), answer in zip(sides.items(), answers):
                    self.assertEqual(reduction.reduced(('dyadic', operator, left, right)), sides[answer], (operator, one))

    def test_constants(self):
        for tree in CONSTANT:
            for room in (0, len(encode(tree))):
                self.assertEqual(calls.reduce(encode(tree), room), 14)

    def test_buffers(self):
        """9 below the length; a buffer as long as the tree is long enough; what lies past the reduced tree stays."""
        for tree, right in REDUCED:
            n, whole = len(encode(right)), len(encode(tree))
            self.assertLessEqual(n, whole)
            for room, answer in ((0, 9), (n - 1, 9), (n, encode(right)), (whole, encode(right))):
                self.assertEqual(calls.reduce(encode(tree), room), answer)
            for room in (n - 1, n, n + 3):
                said, out = c_numbers.left(encode(right), b'\7' * room)
                self.assertEqual((said, out), (-9, b'\7' * room) if room < n else (n, encode(right) + b'\7' * (room - n)))

    def test_order(self):
        """2 to 7, then 14, then 9; in a tree that is wrong and has constant operands besides."""
        one = encode(CONSTANT[0])
        for number, tree in ((2, bytes(32769)), (3, b''), (3, one + b'\0'), (4, nested(33)), (5, array(one, records.record(14))), (6, array(one, ident(b'1'))),
                             (7, array(one, interval(null(), null()))), (7, dyadic(14, interval(null(), null()), one)), (14, array(one, one))):
            for room in (0, 40000):
                self.assertEqual(calls.reduce(tree, room), number)
        self.assertEqual(calls.reduce(nested(32), 5), 9)
        self.assertEqual(calls.reduce(nested(32), 6), null())

    def test_then_lowered(self):
        for answer, settings, tree in ((14, b'', CONSTANT[0]), (7, b'', ('interval', A, B)), (1, b'', NULL),
                                       (b"'x' COLLATE NCA", SETTINGS, ('monadic', 'CaseI', ('str', 2, 'x')))):
            self.assertEqual(calls.reduced_to_sql(settings, encode(tree), 100), answer)
        deep = nested(9)    # eight levels too many for the controller are one after reducing
        self.assertEqual((calls.to_sql(SETTINGS, deep, 100, limit=CONTROLLER), calls.reduced_to_sql(SETTINGS, deep, 100, limit=CONTROLLER)), (4, b'NULL'))


class Names(unittest.TestCase):
    def test_words(self):
        self.assertEqual((len(names.WORDS), len(names.KEYWORDS), len(names.RESERVED)), (14, 147, 150))
        self.assertEqual(names.WORDS - names.KEYWORDS, {b'DIV', b'FALSE', b'TRUE'})
        for name in (b'order', b'Group', b'CURRENT_TIMESTAMP', b'div', b'True', b'', b'1a', b'a b', b'n' * 65):
            self.assertFalse(names.is_name(name), name)
        for name in (b'orders', b'_order', b'grou', b'true_', b'a', b'n' * 64):
            self.assertTrue(names.is_name(name), name)


class Strings(unittest.TestCase):
    def test_by_hand(self):
        for value in VALID:
            self.assertTrue(strings.is_str(value), value)
        for value in [*ILL_FORMED, *(bytes([b]) for b in (*range(0x20), 0x7f)), b'a\0', b'\xc3\xa9\x7f']:
            self.assertFalse(strings.is_str(value), value)

    def test_the_decoder_has_the_standards_table(self):
        """All sequences of one and two bytes; of three and four every lead, with the edges of what follows it."""
        for sequence in itertools.chain(itertools.product(EVERY), itertools.product(EVERY, EVERY), itertools.product(LEADS, EVERY, EDGES),
                                        itertools.product(LEADS[0x20:], EVERY, EDGES, EDGES)):
            data = bytes(sequence)
            right = WELL_FORMED.match(data) is not None and min(data) >= 0x20 and 0x7f not in data
            self.assertEqual(strings.is_str(data), right, data)

    def test_each_as_tree_as_row_and_as_text(self):
        for value in VALID + ILL_FORMED:
            good, literal = value in VALID, b"'" + value.replace(b"'", b"''") + b"'"
            self.assertEqual(calls.to_sql(SETTINGS, records.string(value), 100), literal if good else 6)
            self.assertEqual(calls.read(b'TRUE', row([(b'a', value)])), 'true' if good else 11)
            self.assertEqual(calls.read(literal + b' = NULL', b''), 'unknown' if good else 12)
            if good:
                self.assertEqual(calls.read(literal + b' = a', row([(b'a', value)])), 'true')


class Reading(unittest.TestCase):
    def test_sheet_n(self):
        held = row([(b'a', b'2024-01-02'), (b'b', None), (b'c', b'2024-01-01')])
        self.assertEqual(calls.read(TEXTS[9][1].encode(), held), 'unknown')

    def test_each(self):
        held = row([(b'a', b'x'), (b'b', None)])
        for answer, text, cells in (
                ('true', b"a='x'", held), ('false', b'NOT a >= "a"', held), ('unknown', b'b <> NULL', held), ('true', b"'ab' < 'abc'", b''),
                ('true', b'TRUE OR FALSE AND FALSE', b''), ('true', b'b IS NULL AND a NOT NULL', held), (10, b' ' * 65536, b'\0'), (11, b'(', b'\0'),
                (11, b'TRUE', row([(b'a', b''), (b'A', b'')])), (12, b'zz = ', held), (12, b'(' * 65 + b'TRUE' + b')' * 65, held),
                ('true', b'(' * 64 + b'TRUE' + b')' * 64, held), (13, b'TRUE OR zz IS NULL', held),
                ('true', b"'a''b' = x", row([(b'x', b"a'b")])), ('false', b"'a''b' = x", row([(b'x', b"a''b")])), (12, b"'a' 'b' = x", held),
                ('true', b"'''' = x", row([(b'x', b"'")])), ('true', b"'''''' = x", row([(b'x', b"''")])), ('true', b"'' = x", row([(b'x', b'')])),
                (12, b"''' = a", held), (12, b"a = 'x''", held), (12, b"a = ''x'", held), ('true', b"'(' < '''(' OR '''(' < '('", held),
                ('true', b"'it''s' < 'it(s'", b''), ('true', b"'''' < ''''''", b''), ('true', "'z' < 'é'".encode(), b''),
                ('true', b'\'\xef\xbf\xbf\'<\'\xf0\x90\x80\x80\'', b''), (12, b"a = '\x7f'", held), (12, b"\xc3\xa9 = a", held),
                ('true', b"''=''AND''=''", b''), (11, b"a = '\x7f'", row([(b'a', b'\xc3')])), (12, b"zz = '\xc3'", held),
                ('true', b'TRUE'.rjust(65535), b''), (10, b'TRUE'.rjust(65536), b''), (11, b'TRUE', bytes(32768)), (10, b'TRUE', bytes(32769))):
            self.assertEqual(calls.read(text, cells), answer, text[:80])


class Independence(unittest.TestCase):
    def test_the_model_imports_nothing_of_the_project(self):
        here = os.path.dirname(os.path.abspath(__file__))
        for name in sorted(os.listdir(here)):
            if not name.endswith('.py') or name.startswith('test_'):
                continue
            with open(os.path.join(here, name)) as f:
                tree = ast.parse(f.read())
            used = {word for node in ast.walk(tree) for word in
                    ([alias.name for alias in node.names] if isinstance(node, ast.Import) else
                     [node.module] if isinstance(node, ast.ImportFrom) and not node.level else [])}
            self.assertLessEqual(used, {'calendar', 'functools', 'os', 're', 'struct', 'sys', 'typing'}, name)


if __name__ == '__main__':
    unittest.main()
