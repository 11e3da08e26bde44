"""Reducing before lowering (document 02, slip 8), as far as the command has to speak of it: why a filter cannot be reduced, and which of its parts are told
beforehand and so are not in the text. The program is asked about each part by itself."""
from . import proved, records
from .encode import KNOWN
from .errors import BadInput, Refused

PROGRAM = {False: 'lower', True: 'lower_reduced'}    # with the same arguments
CONSTANTS = 'NULL', 'TRUE', 'FALSE'    # the texts of what a condition without columns is reduced to
REFUSED = 'refused 14'
NAMES = {op: name for name, (op, *_) in KNOWN.items()}
WORDS = ('once they are reduced, both sides of %s are written values, %s and %s, and that is not reckoned: of two written values only t_after, t_before, '
         't_disjoint, t_equals and t_intersects between dates and timestamps are; write what it comes to, leave it out, or take the filter without --reduce')


def operator(node):
    return records.OPERATORS[int.from_bytes(node.head[:2], 'little')] if node.kind in (records.MONADIC, records.DYADIC) else None


def answers(settings, nodes):
    """What the program says of each by itself, reduced: a text, or a refusal."""
    return proved.run(PROGRAM[True], [(settings, node.encode()) for node in nodes])


def constant(settings, tree):
    """The refusal by 14, with the place of the first part that is one by itself, and by none that lies in it."""
    nodes = [node for node, _ in tree.walk()]
    refused = {id(node) for node, said in zip(nodes, answers(settings, nodes)) if said == REFUSED}
    for node in nodes:
        if id(node) in refused and not any(id(one) in refused for child in node.children for one, _ in child.walk()):
            return Refused(14, WORDS % (NAMES[operator(node)], *answers(settings, node.children)), node.place)
    return BadInput('the proved program refused (14), and no part of the filter by itself: please report the filter')


def told_beforehand(settings, tree):
    """The places of the parts that are reduced to NULL, true or false. Of an `and` or `or` its conditions are asked about: each is, if it is, and halves of
    one have its place."""
    nodes = [node for node, _ in tree.walk() if operator(node) not in (None, 'And', 'Or')]
    return [node.place for node, said in zip(nodes, answers(settings, nodes)) if said in CONSTANTS]


def lies_in(place, places):
    """Whether a place is one of these, or inside one."""
    return any(place == one or place.startswith((one + '.', one + '[')) for one in places)
