"""The operators of document 01 ("Op"): numbered as the enum of src/op.rs, spelt as `Op::to_sql`, with the classes that its rules name."""

NAMES = '''Plus Minus Mult Div IntDiv Mod Exp Neg Eq Neq Lt Gt Lte Gte And Or CaseI AccentI SIntersects SEquals SDisjoint STouches SWithin
SOverlaps SCrosses SContains TAfter TBefore TContains TDisjoint TDuring TEquals TFinishedBy TFinishes TIntersects TMeets TMetBy TOverlappedBy
TOverlaps TStartedBy TStarts AEquals AContains AContainedBy AOverlaps IsLike IsNotLike IsBetween IsNotBetween IsInList IsNotInList IsNull
IsNotNull'''.split()
NUMBER = {name: number for number, name in enumerate(NAMES)}

SPELLING = dict(zip('Plus Minus Mult Div IntDiv Mod Exp Neg Eq Neq Lt Gt Lte Gte And Or'.split(),
                    '+ - * / div % ^ NOT = <> < > <= >= AND OR'.split()))
SPELLING.update({'S' + x: 'ST_' + x for x in 'Intersects Equals Disjoint Touches Within Overlaps Crosses Contains'.split()})
SPELLING.update(AEquals='=', AContains='@>', AContainedBy='<@', AOverlaps='&&', IsLike='LIKE', IsNotLike='NOT LIKE', IsBetween='BETWEEN',
                IsNotBetween='NOT BETWEEN', IsInList='IN', IsNotInList='NOT IN', IsNull='IS NULL', IsNotNull='IS NOT NULL')


def between(first, last):
    return NAMES[NUMBER[first]:NUMBER[last] + 1]


# the eight class tests of the source, under its names
ARITHMETIC = between('Plus', 'Exp')
ARRAY = between('AEquals', 'AOverlaps')
RELATIONS = between('Eq', 'Gte')
NULLABLE = between('IsNull', 'IsNotNull')
COMPARISON = RELATIONS + NULLABLE
XTD_COMPARISON = between('IsLike', 'IsNotInList')
SPATIAL = between('SIntersects', 'SContains')
TEMPORAL = between('TAfter', 'TStarts')
INSTANT_OR_INTERVAL = 'TAfter TBefore TDisjoint TEquals TIntersects'.split()
CLASSES = ARITHMETIC, ARRAY, COMPARISON, XTD_COMPARISON, SPATIAL, TEMPORAL, INSTANT_OR_INTERVAL, NULLABLE

# what document 01's rules name besides
MONADIC = 'Minus Neg CaseI AccentI IsNull IsNotNull'.split()
DYADIC = [name for name in NAMES if name not in MONADIC or name == 'Minus']
BETWEEN = between('IsBetween', 'IsNotBetween')
LIKE = between('IsLike', 'IsNotLike')
REDUCED = 'SWithin SOverlaps STouches'.split()    # a column of theirs is reduced in precision, if it is the only one
