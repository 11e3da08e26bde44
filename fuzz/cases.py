"""The cases of fuzz/run, from tools/generators: which kinds there are, how often each comes, and the cases of a seed."""
import random

from damage import DAMAGE
from lowering_cases import Lowerings
from model.limits import CONTROLLER, PLANNER
from model.lowering import GEOPACKAGE, RUST
from reading_cases import Readings

# the writings of the two calls that write, with a C those of the controller; in small letters of their previews; R is for reading, T for reducing
WRITINGS = {case(name): writing for name, writing in (('L', RUST), ('G', GEOPACKAGE), ('CL', RUST), ('CG', GEOPACKAGE)) for case in (str.upper, str.lower)}
REDUCING = 'T'
LIMITS = {which: PLANNER if len(which) == 1 else CONTROLLER for which in WRITINGS}    # of their caller

DATETIME = 'timestamps against DATETIME values'    # of which SQLite is asked on columns that are declared so

# ---- how often each kind comes, beside the others

LOWERING = [
    ('accepted trees', 'accepted', 1200), ('larger trees', 'larger', 300), ('leaves at their limits', 'leaves', 700), ('stored trees', 'stored', 300),
    ('strings of any characters', 'texts', 700), ('strings of apostrophes', 'apostrophes', 80),
    ('timestamps in every place', 'stamps', 700), ('timestamps, 65,535 bytes of text', 'stamps_limit', 40), ('open ends in every place', 'open_ends', 500),
    ('trees that reduce', 'reducible', 900), ('each rule of reducing', 'reductions', 900), ('trees that reduce, damaged', 'reducible_damaged', 200),
    ('reducing 30 to 8,194 bytes', 'reductions_sized', 300),
    ('reducing 32,768 bytes', 'reductions_long', 40), ('a 14, and wrong besides', 'reductions_wrong', 200),
    ('stored trees, damaged', 'stored_damaged', 300), ('settings damaged', 'settings_damaged', 250),
    ('settings at their limits', 'settings_edges', 250),
    ('random bytes as a tree', 'random_bytes', 250), ('random records', 'random_records', 700), ('30 to 34 levels', 'deep', 200),
    ('tree of 32,768 bytes', 'tree_limit', 40), ('text of 65,535 bytes', 'text_limit', 40), ('doubled and unwritten ends', 'doubled_ends', 60),
    ('text too long, and wrong besides', 'long_and_wrong', 80),
    ('6 to 10 levels', 'controller_deep', 300), ('any trees of 7 to 10 levels', 'controller_levels', 200),
    ('tree of 2,000 bytes', 'controller_tree', 150), ('text of 4,000 bytes', 'controller_text', 200),
    ('timestamps, 4,000 bytes of text', 'controller_stamps', 100), ('wrong, and past 2,000, 8 or 4,000', 'controller_wrong', 200),
    ('empty settings or tree', 'empty', 50), ('tree too long', 'too_long', 60), ('stored large trees', 'large', 10)]
READING = [
    ('texts in the grammar', 'grammar', 1000), ('texts of time filters', 'lowered', 600), (DATETIME, 'stamped', 400),
    ('texts, a token bent', 'tokens_bent', 500),
    ('rows bent', 'row_bent', 300), ('texts, bytes damaged', 'text_damaged', 400), ('rows, bytes damaged', 'row_damaged', 300),
    ('rows at their limits', 'row_edges', 300), ('random tokens', 'token_soup', 300), ('random bytes as text and row', 'random_bytes', 100),
    ('values of any characters', 'texts', 900), ('apostrophes in texts', 'marks', 300),
    ('names at their limits', 'names', 400), ('stored texts', 'stored', 200), ('62 to 66 brackets', 'brackets', 150),
    ('rows of many columns', 'wide_row', 100),
    ('text of 65,535, row of 32,768 bytes', 'limits', 20), ('stored large texts and rows', 'large', 6), ('text or row too long', 'too_long', 60),
    ('empty text or row', 'empty', 50)]
DAMAGED = [('trees, ' + how, how, 250) for how in DAMAGE]


def kinds(r):
    """Every kind with its maker and weight; L stands for both calls that write."""
    low, read = Lowerings(r), Readings(r)
    out = [(label, 'L', getattr(low, name), weight) for label, name, weight in LOWERING]
    out += [(label, 'L', lambda how=how: low.damaged(how), weight) for label, how, weight in DAMAGED]
    return out + [(label, 'R', getattr(read, name), weight) for label, name, weight in READING]


def chunk(seed, number, size):
    """So many cases: label, L, G or R, and the two inputs. The same for the same seed and number. Which of the calls that write is asked is drawn."""
    r = random.Random('%s/%d' % (seed, number))
    every = kinds(r)
    for k in r.choices(range(len(every)), [w for *_, w in every], k=size):
        label, which, make, _ = every[k]
        yield label, r.choice('LG') if which == 'L' else which, *make()
