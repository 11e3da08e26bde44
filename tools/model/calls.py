"""The calls as a caller hears them (document 01, "What a caller hears"; document 02, slips 4 and 5, for the second that writes, slip 6 for
previews, slip 7 for the limits, which are the planner's if none are named, slip 8 for reducing): a text, a tree, a length, a truth, or the number of
the first refusal in its order."""
from . import checker, lowering, reader, reduction
from .limits import PLANNER, ROW, SQL
from .lowering import GEOPACKAGE, RUST
from .records import encode
from .refusals import BUFFER, READING_SIZE, TEXT_SIZE, TREE_SIZE, Refused, require

TRUTHS = {True: 'true', False: 'false', None: 'unknown'}


def accepted(settings, tree, limit=PLANNER):
    """Settings and tree, or refusal 1 to 7."""
    found = checker.settings_of(settings)
    require(len(tree) <= limit.tree, TREE_SIZE)
    return found, checker.tree_of(tree, limit)


def lowered(settings, tree, writing=RUST, limit=PLANNER):
    """The text, or refusal 1 to 8."""
    found, root = accepted(settings, tree, limit)
    text = lowering.Writer(found, limit.text + 1, writing).text(root).encode()
    require(len(text) <= limit.text, TEXT_SIZE)
    return text


def heard(call, *arguments):
    """What the call answers, or the refusal's number."""
    try:
        return call(*arguments)
    except Refused as refused:
        return refused.number


def check(settings, tree, limit=PLANNER):
    """0, or the number of a refusal of 1 to 7."""
    answer = heard(accepted, settings, tree, limit)
    return answer if isinstance(answer, int) else 0


def fitted(answer, room):
    """What is heard with a buffer of `room` bytes, where with one of any length it is this text, this tree or this number."""
    return BUFFER if isinstance(answer, bytes) and len(answer) > room else answer


def to_sql(settings, tree, room, writing=RUST, limit=PLANNER):
    """The text as bytes, or the number of a refusal of 1 to 9, for a buffer of `room` bytes."""
    return fitted(heard(lowered, settings, tree, writing, limit), room)


def to_geopackage_sql(settings, tree, room, limit=PLANNER):
    """The same of the second call, which writes timestamps as a GeoPackage stores them, and an Interval's open end above every instant."""
    return to_sql(settings, tree, room, GEOPACKAGE, limit)


def preview(settings, tree, size, writing=RUST, limit=PLANNER):
    """What the call of the writing would answer with a buffer of `size` bytes: the text's length and no refusal, or no length and the refusal's number."""
    answer = to_sql(settings, tree, size, writing, limit)
    return (None, answer) if isinstance(answer, int) else (len(answer), None)


def reduced(tree):
    """The reduced tree's record, or refusal 2 to 7 or 14."""
    require(len(tree) <= PLANNER.tree, TREE_SIZE)
    return encode(reduction.reduced(checker.tree_of(tree)))


def reduce(tree, room):
    """The reduced tree's record, or the number of a refusal of 2 to 7, 14 or 9, for a buffer of `room` bytes."""
    return fitted(heard(reduced, tree), room)


def reduced_to_sql(settings, tree, room, writing=RUST, limit=PLANNER):
    """The tree reduced, and what came of it lowered: reducing's 2 to 7 and 14 come before the 1 of lowering."""
    first = heard(reduced, tree)
    return first if isinstance(first, int) else to_sql(settings, first, room, writing, limit)


def reading(text, row):
    """The truth, or refusal 10 to 13."""
    require(len(text) <= SQL and len(row) <= ROW, READING_SIZE)
    return TRUTHS[reader.truth_on(text, row)]


def read(text, row):
    """'true', 'false', 'unknown', or the number of a refusal of 10 to 13."""
    return heard(reading, text, row)
