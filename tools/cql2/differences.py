"""Where the text of a filter is known to do something else than the filter says, or cannot be run: one table, and the lines that it gives."""
import collections

from . import looking

# What is looked for; the row of docs/DIFFERENCES.md that it stands for; what will happen; the way out; whether SQLite cannot run the text.
Difference = collections.namedtuple('Difference', 'sees entry happens instead cannot', defaults=[False])

TABLE = [
    Difference(looking.open_end, 'an open end, `..`',
               'the open end is written as the text -2021-01-01, which lies before every instant, so that %(op)s picks the wrong rows, or none',
               '%(writing)swrite a last instant in its place, as 9999-12-31, or 9999-12-31T23:59:59Z beside timestamps'),
    Difference(looking.false_for_unknown, 'NOT TAfter(a, [b, c]), b NULL',
               'where %(columns)s is NULL the text of %(op)s can be false instead of unknown, so that `not` picks the row, and isNull does not',
               'join it by `and` with not isNull of %(each)s'),
    Difference(looking.null_end, 'TAfter(a, [NULL, b]), a 2, b 1',
               'an interval has no null as an end, and %(op)s would be unknown of it; the text compares the other ends all the same, so that it picks rows',
               'write .. for an end that is open'),
    Difference(looking.reversed_interval, 'an interval whose end lies before its start',
               'the interval ends before it starts, so that t_disjoint picks every row and t_intersects none',
               'write the earlier instant first'),
    Difference(looking.other_form, 'a written instant beside instants of another form',
               'the instant is written %(written)s, and %(column)s %(has)s instants as %(example)s: they are compared as texts, and a value of that '
               'very instant is not equal to it but %(lies)s it',
               '%(instead)s'),
    Difference(looking.date_and_timestamp, 'a date beside a timestamp',
               'dates and timestamps are compared as texts, so that a day comes before its own midnight and is never equal to it',
               'write all of them as dates, or all as timestamps, as the column has them'),
    Difference(looking.number_as_text, "a column declared DATE, `entry < '9999'`",
               'SQLite takes this text for a number beside %(column)s, and every date is above every number',
               'write a whole date, as {"date": "9999-12-31"}'),
    Difference(looking.other_type, 'a column of another declared type',
               '%(column)s is declared for %(kind)s values and meets %(other)s values: in SQLite every number is below every text, or one is read as the other',
               'compare it with what it is declared for'),
    Difference(looking.like_case, "LIKE(a, 'X'), a `x`",
               "SQLite's LIKE takes A and a for the same letter, so that texts in another letter case are picked too",
               'put casei on both sides if that is meant; else ask by =, or set PRAGMA case_sensitive_like = 1 where the text is run'),
    Difference(looking.like_case_beyond, "CaseI(a) LIKE CaseI('É'), a `é`",
               "SQLite's LIKE takes no notice of casei, and only A to Z are the same in both letter cases: É and é are not",
               'write _ where such a letter may stand, or ask by ='),
    Difference(looking.like_accents, "AccentI(a) LIKE AccentI('cafe'), a `café`",
               "SQLite's LIKE takes no notice of accenti, so that letters with accents are not matched",
               'write _ where such a letter may stand, or ask by ='),
    Difference(looking.like_escape, r"LIKE(a, '10\%'), a `10\5`",
               r"SQLite's LIKE has no escape here: \ stands for itself, and % and _ after it for any text",
               'write _ in the place of the escaped character, which matches it and any other'),
    Difference(looking.lost_fold, 'AccentI(CaseI(AccentI(a))), CaseI(CaseI(AccentI(a)))',
               'of collations one upon the other the outermost counts alone: %(fold)s is lost',
               'write casei and accenti once each, one directly inside the other'),
    Difference(looking.one_sided_fold, '= with a collation on both sides, or on one',
               'SQLite compares both sides by one collation, that of the left side if it has one',
               'put the same casei and accenti on both sides'),
    Difference(looking.fold_in_list, "IN(x, ['X' with flags 1, 'y'])",
               'SQLite compares by the collation of the left side: casei and accenti in the list do not count',
               'put the same casei and accenti on the left side and on each of the list'),
    Difference(looking.declared_collation, 'a column declared with a collation',
               'the column %(column)s is declared with the collation %(collation)s, by which SQLite compares it: texts that differ may be equal',
               'put casei on both sides if that is meant; else give the column without the collation, by a view'),
    Difference(looking.other_order, 'a GeoPackage whose texts are UTF-16',
               'the file holds its texts as %(encoding)s, and SQLite orders them by those bytes: for some characters beyond ASCII another order than theirs',
               'have the file written anew as UTF-8, by PRAGMA encoding before its tables are made'),
    Difference(looking.fold_in_function, 'f(CaseI(a)), a `X`',
               'the function %(op)s gets the value as it is: casei and accenti do not count',
               'put them on what %(op)s gives'),
    Difference(looking.whole_division, 'Div(7, 2)',
               'SQLite cuts the quotient of two whole numbers: 7 / 2 is 3',
               'multiply by a fraction, as * 0.5'),
    Difference(looking.fraction_modulo, 'Mod(7.5, 2)',
               'SQLite cuts both sides of % to whole numbers first: 7.5 % 2 is 1',
               'use columns that are declared for whole numbers'),
    Difference(looking.list_in_order, 'AEquals([1, 2], [2, 1])',
               'SQLite compares the two in order, and a_equals compares sets',
               'write both in one order'),
    Difference(looking.null_geometry, 'a NULL geometry under SpatiaLite',
               'where %(column)s is NULL SpatiaLite answers -1, which counts as true, so that the row is picked',
               'join it by `and` with not isNull of %(column)s'),
    Difference(looking.no_geometry, 'a column that is no geometry under SpatiaLite',
               '%(column)s is no geometry column of the table: SpatiaLite answers -1 for it, which counts as true, so that every row is picked',
               'name the geometry column'),
    Difference(looking.other_system, "an SRID other than the table's",
               'the column %(column)s is in the reference system %(srid)d and the written geometry in %(given)d: the numbers are compared as they stand',
               'write it in the system of the column, with --srid %(option)d'),
    Difference(looking.no_operator, 'Exp, IntDiv, AContains, AContainedBy, AOverlaps',
               'SQLite has no operator for %(op)s: a syntax error',
               'say it by other operators, or by a function of your database with --function', True),
    Difference(looking.list_and_value, 'AEquals(a, [1, 2])',
               'SQLite compares no list with this: "row value misused", or a syntax error',
               'join comparisons of single values by `and`', True),
    Difference(looking.list_of_others, 'IN(a, [b, 2]) (sheet F)',
               'this is no text, number, boolean or instant, so the whole list is written as one row: "row value misused"',
               'join comparisons by `or`', True),
    Difference(looking.reduced_precision, 'SWithin, SOverlaps, STouches of a column',
               'the text calls ST_ReducePrecision, which SpatiaLite before 5.1 does not have',
               'run it on SpatiaLite 5.1 or newer', True),
]


# A difference at a place of a filter, in words: what will happen, and the way out.
Found = collections.namedtuple('Found', 'place happens instead cannot')


def find(value, table):
    """What of the table is in the filter, each line once, in reading order."""
    found = {}
    for part in looking.walk(value):
        for difference in TABLE:
            for place, words in difference.sees(part, table):
                one = Found(place, *(text % words if words else text for text in (difference.happens, difference.instead)), difference.cannot)
                found.setdefault(one)
    return list(found)


def line(one):
    return 'warning at %s: %s; %s' % (one.place, one.happens, one.instead)
