"""The library's calls on lent bytes that lie between pages which no program may touch, with marks beside them."""
import ctypes, mmap, random

from model import c as c_numbers
from model.limits import CONTROLLER, PLANNER
from model.lowering import GEOPACKAGE, RUST

PAGE = mmap.PAGESIZE
MARK = bytes(range(0x9d, 0xbd))
NOISE = random.Random(9).randbytes(160000)    # what a lent buffer holds before the call
CALLERS = {PLANNER: '', CONTROLLER: 'controller_'}    # by their limits, what stands before the names of their functions
CALLS = {RUST: 'sql', GEOPACKAGE: 'geopackage_sql'}    # and what stands after


class Lent:
    """Room for one lent slice. It lies against the page after it or the page before it; on its other side are marks."""

    def __init__(self, pages):
        self.size = pages * PAGE
        self.map = mmap.mmap(-1, self.size + 2 * PAGE)
        self.base = ctypes.addressof(ctypes.c_char.from_buffer(self.map))
        libc = ctypes.CDLL(None, use_errno=True)
        for page in (self.base, self.base + PAGE + self.size):
            if libc.mprotect(ctypes.c_void_p(page), ctypes.c_size_t(PAGE), 0):
                raise OSError('mprotect')

    def place(self, data, at_end):
        """The address of the bytes."""
        self.data = data
        if at_end:
            self.first = PAGE + self.size - len(data) - len(MARK)
            self.map[self.first:PAGE + self.size] = MARK + data
            return self.base + self.first + len(MARK)
        self.first = PAGE
        self.map[PAGE:PAGE + len(data) + len(MARK)] = data + MARK
        return self.base + PAGE

    def now(self):
        """The bytes as they are now, and whether the marks stand."""
        got = self.map[self.first:self.first + len(self.data) + len(MARK)]
        if self.first == PAGE:
            return got[:len(self.data)], got[len(self.data):] == MARK
        return got[len(MARK):], got[:len(MARK)] == MARK

    def kept(self):
        return self.now() == (self.data, True)


class Library:
    """The functions of a shared object; those of the controller may be of another."""

    def __init__(self, path, controllers=None):
        c, d = ctypes.CDLL(path), ctypes.CDLL(controllers or path)
        slice_ = [ctypes.c_void_p, ctypes.c_size_t]
        both = [(limit, writing, name + '%s_' + call) for limit, name in CALLERS.items() for writing, call in CALLS.items()]
        self.writers, self.previews = ({(limit, writing): (c if limit == PLANNER else d)['wenduulig_' + name % word] for limit, writing, name in both} for word in ('to', 'preview'))
        self.reader, self.reducer = c.wenduulig_read, c.wenduulig_reduce
        for writer in self.writers.values():
            writer.argtypes, writer.restype = slice_ * 3, ctypes.c_int64
        for preview in self.previews.values():
            preview.argtypes, preview.restype = slice_ * 2 + [ctypes.c_size_t], ctypes.c_int64
        self.reader.argtypes, self.reader.restype = slice_ * 2, ctypes.c_int32
        self.reducer.argtypes, self.reducer.restype = slice_ * 2, ctypes.c_int64
        self.one, self.two, self.out = Lent(18), Lent(18), Lent(18)

    def lower(self, writing, settings, tree, out, at_end, limit=PLANNER):
        """The answer, the bytes of `out` afterwards, and what was touched that should not have been."""
        a, b, c = self.one.place(settings, at_end), self.two.place(tree, at_end), self.out.place(out, at_end)
        answer = self.writers[limit, writing](a, len(settings), b, len(tree), c, len(out))
        after, marked = self.out.now()
        touched = [what for what, kept in (('settings', self.one.kept()), ('tree', self.two.kept()), ('beside out', marked)) if not kept]
        return answer, after, touched

    def preview(self, writing, settings, tree, size, at_end, limit=PLANNER):
        a, b = self.one.place(settings, at_end), self.two.place(tree, at_end)
        answer = self.previews[limit, writing](a, len(settings), b, len(tree), size)
        return answer, [what for what, kept in (('settings', self.one.kept()), ('tree', self.two.kept())) if not kept]

    def reduce(self, tree, out, at_end):
        """As `lower`."""
        a, b = self.two.place(tree, at_end), self.out.place(out, at_end)
        answer = self.reducer(a, len(tree), b, len(out))
        after, marked = self.out.now()
        return answer, after, [what for what, kept in (('tree', self.two.kept()), ('beside out', marked)) if not kept]

    def read(self, text, row, at_end):
        a, b = self.one.place(text, at_end), self.two.place(row, at_end)
        answer = self.reader(a, len(text), b, len(row))
        return answer, [what for what, kept in (('text', self.one.kept()), ('row', self.two.kept())) if not kept]


def check_lowering(library, writing, settings, tree, want, room, noise, at_end, limit=PLANNER):
    """Nothing, or what was expected and what came."""
    out = NOISE[noise:noise + room]
    right = c_numbers.left(want, out)
    answer, after, touched = library.lower(writing, settings, tree, out, at_end, limit)
    if (answer, after) == right and not touched:
        return None
    return right, (answer, after), touched


def check_preview(library, writing, settings, tree, want, size, noise, at_end, limit=PLANNER):
    """The same of a preview, which is lent no buffer and so no noise."""
    right = c_numbers.preview(want, size)
    answer, touched = library.preview(writing, settings, tree, size, at_end, limit)
    return None if answer == right and not touched else ((right, b''), (answer, b''), touched)


def check_reducing(library, tree, want, room, noise, at_end):
    out = NOISE[noise:noise + room]
    right = c_numbers.left(want, out)
    answer, after, touched = library.reduce(tree, out, at_end)
    return None if (answer, after) == right and not touched else (right, (answer, after), touched)


def check_reading(library, text, row, want, at_end):
    answer, touched = library.read(text, row, at_end)
    return None if answer == want and not touched else ((want, b''), (answer, b''), touched)
