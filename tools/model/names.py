"""What a name may be (document 01, "Records", and document 02, slip 1): one rule for trees, settings, rows and SQL texts."""
import os
import re

from .limits import NAME

LIST = os.path.join(os.path.dirname(os.path.abspath(__file__)), 'sqlite_keywords.txt')    # as libsqlite3 gives them; answers/make_keyword_answers.py
with open(LIST, 'rb') as f:
    KEYWORDS = frozenset(f.read().split())
WORDS = frozenset(b'AND BETWEEN COLLATE DIV FALSE IN IS ISNULL LIKE NOT NOTNULL NULL OR TRUE'.split())    # document 01's
RESERVED = WORDS | KEYWORDS
WORD = rb'[A-Za-z_][A-Za-z0-9_]*'    # the letters alone: also what a bare word of an SQL text is
SHAPE = re.compile(WORD + rb'\Z')


def folded(name):
    """The same for names that are equal in any letter case."""
    return name.upper()


def is_name(name):
    return len(name) <= NAME and SHAPE.match(name) is not None and folded(name) not in RESERVED
