"""The SQL text of a tree by the proved program, or its refusal in words with the place in the filter."""
import re

from . import callers, proved, records, reducing
from .callers import PLANNER
from .encode import RULES
from .errors import BadInput, Refused
from .writing import ARGUMENTS, RUST

WORDS = {    # of the caller's limits, whose they are, and the bytes of the filter
    2: 'the filter is longer than {0.tree:,} bytes as records{1} (it has {2})',
    4: 'this lies deeper than {0.depth} levels{1}',
    8: 'the SQL text would be longer than {0.text:,} bytes{1}',
}

REDUCED = {    # the same of what came of reducing
    2: 'the filter is longer than {0.tree:,} bytes as records{1}, also when it is reduced',
    4: 'the filter lies deeper than {0.depth} levels{1}, also when it is reduced',
}


def refusal_of(line):
    told = re.fullmatch(r'refused (\d+)', line)
    return int(told.group(1)) if told else None


def lower(settings, tree, writing=RUST, caller=PLANNER, reduced=False):
    """The SQL text, or Refused; both writings are refused alike, but for the length of the text, both callers but for their limits. `reduced`: the tree is
    reduced first, within the planner's limits, and what comes of it is lowered."""
    line = proved.run(reducing.PROGRAM[reduced], [(settings, tree.encode())], callers.ARGUMENTS[caller] + ARGUMENTS[writing])[0]
    number = refusal_of(line)
    if number is None:
        return line
    if number == 1:
        raise BadInput('a collation of the settings: %s' % RULES[records.ID])
    if number in (6, 7):
        raise explained(number, settings, tree)
    if number == 14:
        raise reducing.constant(settings, tree)
    if number not in WORDS:
        raise BadInput('the proved program refused (%d) records that this command made: please report the filter' % number)
    raise past_a_limit(number, tree, caller, reduced)


def past_a_limit(number, tree, caller, reduced):
    """The limit that a tree, or its text, passes: where it is reduced first, the planner's, or the caller's by what comes of it."""
    size, deepest = len(tree.encode()), max(depth for _, depth in tree.walk())
    if reduced and number in (2, 4) and size <= callers.LIMITS[PLANNER].tree and deepest <= callers.LIMITS[PLANNER].depth:
        return Refused(number, REDUCED[number].format(callers.LIMITS[caller], callers.WHOSE[caller]))
    whose = PLANNER if reduced and number != 8 else caller
    limit = callers.LIMITS[whose]
    place = next((node.place for node, depth in tree.walk() if depth > limit.depth), '$') if number == 4 else None
    return Refused(number, WORDS[number].format(limit, callers.WHOSE[whose], size), place)


def explained(number, settings, tree):
    """Which record it is: the program is asked about each by itself, in reading order, with Null in the place of what lies below.

    For 7 a record keeps the shapes of its children, as that rule is about them; an Interval that is not the root is asked about as an operand."""
    nodes = [node for node, _ in tree.walk()]
    asked = []
    for node in nodes:
        bare = node.bare(0 if number == 6 else 1)
        if number == 7 and node.kind == records.INTERVAL and node is not tree:
            bare = records.dyadic('TEquals', node.place, bare, records.Node(records.NULL, node.place))
        asked.append((settings, bare.encode()))
    for node, line in zip(nodes, proved.run('lower', asked)):
        if refusal_of(line) == number:
            return Refused(number, *told(number, node))
    return BadInput('the proved program refused (%d), and no part of the filter by itself: please report the filter' % number)


NAME = re.compile(r'[A-Za-z_][A-Za-z0-9_]{0,63}')


def keyword(node):
    """The words for a name that is refused though its letters are those of names: it is a keyword, and what to do then."""
    name = (node.head[1:] if node.kind == records.FUNCTION else node.head).decode(errors='replace')
    if not NAME.fullmatch(name):
        return None
    whose = 'SQL' if name.upper() in ('DIV', 'FALSE', 'TRUE') else 'SQLite'
    if node.kind == records.ID:
        return 'the property %s is a keyword of %s: give the column another name, or show it under one by a view' % (name, whose)
    return 'the function %s is a keyword of %s: give it another name where it is registered, or use another function' % (name, whose)


def unfit(node):
    """The words for a text that is refused: the first character that it may not have, or its length."""
    text = node.head[1:].decode('utf-8', 'surrogatepass')
    for k, c in enumerate(text, 1):
        if c < ' ' or c == '\x7f':
            return 'the text has a control character, U+%04X, as its character %d: none below U+0020 is taken, nor U+007F' % (ord(c), k)
        if '\ud800' <= c <= '\udfff':
            return 'the text has half of a surrogate pair, \\u%04x, as its character %d: the two halves make a character, one alone is none' % (ord(c), k)
    return 'the text has %d bytes as UTF-8, and 4,096 is the most' % (len(node.head) - 1)


def told(number, node):
    """The words and the place for the record that breaks the rule."""
    if number == 6:
        words = unfit(node) if node.kind == records.STR else node.kind in (records.ID, records.FUNCTION) and keyword(node)
        return words or node.rule or RULES[node.kind], node.place + ('.op' if node.kind == records.FUNCTION else '')
    stray = [child for child in node.children if child.kind == records.INTERVAL]
    name = records.OPERATORS[int.from_bytes(node.head[:2], 'little')] if node.kind == records.DYADIC else ''
    if name.startswith('T'):
        word = 't_' + name[1].lower() + name[2:]
        return '%s takes an interval on both sides' % word, node.place
    return 'an interval can only be an operand of a t_ operator', (stray or [node])[0].place
