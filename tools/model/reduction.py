"""The reduced tree of an accepted one (document 02, slip 8): the rules of `E::reduce` in src/expr.rs of the Rust that the slip names, in its order,
operands first. A dyadic operator of two literals is refused with 14 but for those of instants that are reckoned here."""
from .operators import INSTANT_OR_INTERVAL
from .refusals import CONSTANT_OPERANDS, require

NULL = ('null',)
LITERALS = 'unbounded', 'bool', 'num', 'str', 'date', 'timestamp', 'spatial'    # what `as_literal` takes, beside Null
INSTANTS = 'unbounded', 'date', 'timestamp'
FLAGS = {'CaseI': 1, 'AccentI': 2}    # of a Str


def reduced(tree):
    """The tree, or refusal 14."""
    kind = tree[0]
    if kind == 'monadic':
        return monadic(tree[1], reduced(tree[2]))
    if kind == 'dyadic':
        return (joined if tree[1] in ('And', 'Or') else dyadic)(tree[1], reduced(tree[2]), reduced(tree[3]))
    if kind == 'interval':
        return (kind, *map(reduced, tree[1:]))
    return (*tree[:-1], list(map(reduced, tree[-1]))) if kind in ('array', 'function') else tree


def monadic(operator, operand):
    kind = operand[0]
    if operator == 'Minus' and kind == 'num':
        return (kind, -operand[1], operand[2])    # of a zero 0, where the Rust has -0
    if operator == 'Neg' and kind == 'bool':
        return (kind, 1 - operand[1])
    if operator in ('Minus', 'Neg') and kind == 'null':
        return NULL
    if operator in ('IsNull', 'IsNotNull') and kind == 'null':
        return ('bool', int(operator == 'IsNull'))
    if operator in FLAGS and kind == 'str':
        return (kind, operand[1] | FLAGS[operator], operand[2])
    if operator in FLAGS and operand[:2] == ('monadic', operator):
        return operand
    return ('monadic', operator, operand)


def joined(operator, left, right):
    """And, Or: by their three-valued tables, if both sides are Null or Bool."""
    if not {left[0], right[0]} <= {'null', 'bool'}:
        return ('dyadic', operator, left, right)
    decides = ('bool', int(operator == 'Or'))    # whatever the other side is
    return decides if decides in (left, right) else NULL if NULL in (left, right) else left


def dyadic(operator, left, right):
    """Any other operator of two operands."""
    if NULL in (left, right):
        return NULL
    if left[0] not in LITERALS or right[0] not in LITERALS:
        return ('dyadic', operator, left, right)
    require(operator in INSTANT_OR_INTERVAL and left[0] in INSTANTS and right[0] in INSTANTS, CONSTANT_OPERANDS)
    return ('bool', int(compared(operator, instant(left), instant(right))))


def compared(operator, left, right):
    return {'TAfter': left > right, 'TBefore': left < right, 'TDisjoint': left != right, 'TEquals': left == right, 'TIntersects': left == right}[operator]


def instant(tree):
    """Its place in time: a Date is midnight; Unbounded, which has no fields, lies below every instant and equals itself."""
    return tree[1:] + (0, 0, 0) if tree[0] == 'date' else tree[1:]
