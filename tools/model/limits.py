"""The limits of document 01 ("Records", "Truth", "What a caller hears") and of the controller (document 02, slip 7), each number once; all are the
greatest values that pass."""
from typing import NamedTuple


class Limits(NamedTuple):
    """What a caller's trees and their texts may be."""
    tree: int     # bytes, refusal 2
    depth: int    # levels, the root being 1, refusal 4
    text: int     # bytes, refusal 8


PLANNER = Limits(tree=32768, depth=32, text=65535)
CONTROLLER = Limits(tree=2000, depth=8, text=4000)

NAME = 64
STR = 4096
SPATIAL = 4096
MANTISSA = 10 ** 15 - 1
SCALE = 9
FLAGS = 3
YEAR = 9999
PRECISION = 15

# of reading
SQL = 65535
ROW = 32768
VALUE = 64
BRACKETS = 64
