"""What a caller in C hears (include/wenduulig.h): the length of a text or of a reduced tree, 1 true, 0 false, 2 unknown, or minus a refusal's number;
and what it finds in its buffer (document 01, "What a caller hears")."""
from . import calls

TRUTH = {'true': 1, 'false': 0, 'unknown': 2}


def to_sql(answer, room):
    """Of either call that writes a text, and of reducing: with a buffer of so many bytes, where with one of any length the bytes or the refusal's number
    are `answer`."""
    answer = calls.fitted(answer, room)
    return -answer if isinstance(answer, int) else len(answer)


def preview(answer, size):
    """Of either preview: what its call that writes says with a buffer of `size` bytes; none is lent."""
    return to_sql(answer, size)


def left(answer, out):
    """The same with the buffer `out`, and its bytes afterwards."""
    said = to_sql(answer, len(out))
    return said, out if said < 0 else answer + out[said:]


def read(text, row):
    answer = calls.read(text, row)
    return -answer if isinstance(answer, int) else TRUTH[answer]
