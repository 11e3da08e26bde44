"""A right tree's bytes with one record changed, and the lengths of the records that hold it put right."""
from model.records import HEAD, LENGTH, before_records


def records_of(tree, at=0, end=None):
    """Where each record of a right tree begins and ends, and where the records begin that hold it."""
    end = len(tree) if end is None else end
    while at < end:
        length, kind = HEAD.unpack_from(tree, at)
        body, stop = at + HEAD.size, at + 4 + length
        yield at, stop, []
        before = before_records(kind, tree[body:stop])
        if before is not None:
            for place, last, above in records_of(tree, body + before, stop):
                yield place, last, above + [at]
        at = stop


def longer(tree, places, by):
    """With the lengths at these places that much greater."""
    out = bytearray(tree)
    for place in places:
        LENGTH.pack_into(out, place, LENGTH.unpack_from(out, place)[0] + by)
    return bytes(out)


def resized(tree, above, at, stop, body):
    """The record from `at` to `stop` with another body."""
    out = longer(tree, above + [at], len(body) - (stop - at - HEAD.size))
    return out[:at + HEAD.size] + body + out[stop:]


def replaced(tree, above, at, stop, other):
    """Other bytes in the place of the record."""
    out = longer(tree, above, len(other) - (stop - at))
    return out[:at] + other + out[stop:]
