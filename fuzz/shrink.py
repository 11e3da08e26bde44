"""Makes the inputs of a disagreement smaller, as long as the library and the expectation still part in the same way."""
import multiprocessing, time

from cases import LIMITS, REDUCING, WRITINGS
from damage import NULL
from generators.edits import records_of, replaced, resized
from generators.trees import SETTINGS
from library import Library, check_lowering, check_preview, check_reading, check_reducing
from model import c as c_numbers, calls
from model.limits import PLANNER

SECONDS = 20


def smaller(data, which, part):
    """Candidates, the smallest first: a record in the place of one that holds it, NULL for a record, runs of bytes left out."""
    if which != 'R' and part == 1 and calls.check(SETTINGS, data) in (0, 7):
        found = list(records_of(data))
        for at, stop, above in found:
            for p, q, _ in found:
                if at <= p and q <= stop and q - p < stop - at:
                    yield replaced(data, above, at, stop, data[p:q])
            if stop - at > len(NULL):
                yield replaced(data, above, at, stop, NULL)
            yield replaced(data, above, at, stop, b'')
            for n in (0, 1, (stop - at - 6) // 2):    # a shorter body
                if 0 < stop - at - 6 - n:
                    yield resized(data, above, at, stop, data[at + 6:at + 6 + n])
    step = len(data)
    while step:
        for at in range(0, len(data), step):
            yield data[:at] + data[at + step:]
        step //= 2


def again(library, which, a, b, lent):
    """What disagrees on these inputs; the buffer keeps its distance from the text's length, unless no text is as long."""
    if which == 'R':
        return lent, check_reading(library, a, b, c_numbers.read(a, b), *lent)
    want, limit = wanted(which, a, b), LIMITS.get(which, PLANNER)
    near = len(lent) > 3 and not isinstance(want, int) and lent[0] <= limit.text
    room = max(0, len(want) + lent[3]) if near else lent[0]
    if which == REDUCING:
        return (room, *lent[1:]), check_reducing(library, b, want, room, *lent[1:3])
    check = check_lowering if which.isupper() else check_preview
    return (room, *lent[1:]), check(library, WRITINGS[which], a, b, want, room, lent[1], lent[2], limit)


def wanted(which, a, b):
    """What the model says with a buffer that is long enough, of a call that is lent one."""
    return calls.heard(calls.reduced, b) if which == REDUCING else calls.heard(calls.lowered, a, b, WRITINGS[which], LIMITS[which])


def signature(which, found):
    sign = lambda x: x if which == 'R' or x < 0 else 0
    return sign(found[0][0]), sign(found[1][0]), found[0][0] == found[1][0], tuple(found[2])


def reduce(path, which, a, b, lent, found, pipe):
    library, until = Library(path), time.time() + SECONDS
    if which != 'R':
        want = wanted(which, a, b)
        lent = (*lent, 0 if isinstance(want, int) else lent[0] - len(want))
    goal, best, moved = signature(which, found), (a, b, lent, found), True
    while moved and time.time() < until:
        moved = False
        for part in (1, 0):
            for other in smaller(best[part], which, part):
                if time.time() > until:
                    break
                inputs = (best[0], other) if part else (other, best[1])
                new, said = again(library, which, *inputs, lent)
                if said and signature(which, said) == goal and len(other) < len(best[part]):
                    best, moved = (*inputs, new, said), True
                    pipe.send(best)
                    break
    pipe.send(None)


def smallest(path, which, a, b, lent, found):
    """In a process of its own: a smaller input may end it."""
    ours, theirs = multiprocessing.Pipe(False)
    p = multiprocessing.Process(target=reduce, args=(path, which, a, b, lent, found, theirs), daemon=True)
    p.start()
    theirs.close()
    best = a, b, lent, found
    try:
        while (got := ours.recv()) is not None:
            best = got
    except EOFError:
        pass
    p.join()
    return best
