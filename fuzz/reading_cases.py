"""Texts and rows: in the grammar, at the limits, and damaged."""
from damage import bytes_changed, cut_or_lengthened, flipped
from edges import any_text, edge_name, edge_text, edge_value
from generators import reading_edges, readings, stamps, texts
from model import lowering, records
from model.limits import ROW, SQL, VALUE
from model.operators import INSTANT_OR_INTERVAL, RELATIONS, TEMPORAL
from model.records import SHEET_SETTINGS

WORDS = [b'AND', b'OR', b'NOT', b'NULL', b'IS', b'TRUE', b'FALSE', b'(', b')', b'<', b'>', b'<=', b'>=', b'=', b'<>', b'!=', b'a', b'b', b'"a"',
         b"'x'", b"''", b'zz']
EDGES, STAMPED = reading_edges.edges(), [*stamps.predicates(), *stamps.open_ended(), *stamps.outside()]
SMALL_READINGS, LARGE_READINGS = ([c for c in EDGES if (len(c[0]) + len(c[1]) < 2000) == small] for small in (True, False))


class Readings:
    """Texts and rows."""
    near = [value.encode() for value in ('', "'", "''", "'''", "a'", "a''", "a'b", "a''b", 'a(b', 'a&b', 'é', "é'", 'e', 'z', '🔩', '\uffff')]    # one another

    def __init__(self, r):
        self.r = r

    def parts(self):
        cells = readings.some_row(self.r)
        return readings.expression(self.r, cells, self.r.choice((0, 0, 1, 2))), cells

    def grammar(self):
        tokens, cells = self.parts()
        return readings.joined(self.r, tokens), records.row(cells)

    def tokens_bent(self):
        tokens, cells = self.parts()
        return readings.joined(self.r, readings.bent(self.r, tokens)), records.row(cells)

    def row_bent(self):
        tokens, cells = self.parts()
        return readings.joined(self.r, tokens), readings.bent_row(self.r, records.row(cells))

    def text_damaged(self):
        text, row = self.grammar()
        return self.r.choice((flipped, bytes_changed, cut_or_lengthened))(self.r, text or b' '), row

    def row_damaged(self):
        text, row = self.grammar()
        return text, self.r.choice((flipped, bytes_changed, cut_or_lengthened))(self.r, row or b'\0')

    def row_edges(self):
        """Names and values at the edges of their rules, in a row and in the text."""
        r = self.r

        def value():
            if r.random() < .4:
                return edge_value(r, VALUE)
            return b'v' * r.choice((1, 63, 64, 64, 65) if r.random() < .2 else (1, 2, 64))

        cells = [(edge_name(r) if r.random() < .3 else b'c%d' % k, r.choice((None, value()))) for k in range(r.randint(1, 4))]
        n, v = r.choice(cells)
        other = edge_text(r, b'v', (0, 1, 64))
        return r.choice((b'%s=%s' % (n, texts.literal(v or b'')), b'"%s"<\'%s\'' % (n, other), b'TRUE', n + b' NOT NULL')), records.row(cells)

    def texts(self):
        """Values of any characters, in a row and written; some ill-formed, here or there."""
        r = self.r
        value = lambda: r.choice((any_text(r).encode(), r.choice(self.near)))
        cells = [(b'a', value()), (b'b', r.choice((None, value()))), (b'c', edge_value(r, VALUE) if r.random() < .12 else value())]
        written = lambda: texts.literal(edge_value(r, VALUE) if r.random() < .06 else r.choice((value(), r.choice(cells)[1] or b'')))
        atom = lambda: r.choice((b'a', b'"b"', b'c', written(), written()))
        tests = [r.choice((b'', b'NOT ')) + atom() + r.choice(readings.SIGNS) + atom() for _ in range(r.randint(1, 3))]
        return r.choice((b' AND ', b' OR ')).join(tests), records.row(cells)

    def marks(self):
        """Apostrophes in any number about a few other bytes: texts that close and such that do not."""
        r = self.r
        run = b''.join(r.choice((b"'", b"'", b"'", b'a', b' ', 'é'.encode(), b'=', b'"')) for _ in range(r.randint(1, 9)))
        return r.choice((b'a=' + run, run + b'=a', b"'" + run + b"'=a", b"a<'" + run + b"'")), records.row([(b'a', r.choice(self.near))])

    def token_soup(self):
        r = self.r
        return b' '.join(r.choice(WORDS) for _ in range(r.randint(1, 9))), records.row([(b'a', b'x'), (b'b', None)])

    def random_bytes(self):
        r = self.r
        return r.randbytes(r.randrange(9)), r.randbytes(r.randrange(20)) if r.random() < .5 else b''

    def stored(self):
        return self.r.choice(SMALL_READINGS)

    def large(self):
        return self.r.choice(LARGE_READINGS)

    def time_filter(self, depth):
        r = self.r
        column = lambda: ('id', r.choice('abcd'))
        leaf = lambda: r.choice((column(), column(), column(), ('date', 2024, 1, r.randint(1, 5)), ('unbounded',), ('null',)))
        k = r.randrange(8 if depth else 5)
        if k == 0:
            return ('monadic', r.choice(('IsNull', 'IsNotNull')), column())
        if k == 1:
            return ('dyadic', r.choice(RELATIONS), column(), ('str', 0, r.choice(('2024-01-0%d' % r.randint(1, 5), any_text(r)))))
        if k < 5:
            op = r.choice(TEMPORAL)
            side = lambda: leaf() if op in INSTANT_OR_INTERVAL and r.random() < .5 else ('interval', leaf(), leaf())
            return ('dyadic', op, side(), side())
        if k == 5:
            return ('monadic', 'Neg', self.time_filter(depth - 1))
        return ('dyadic', r.choice(('And', 'Or')), self.time_filter(depth - 1), self.time_filter(depth - 1))

    def lowered(self):
        """The text of a time filter by either call that writes, on a row that holds its columns or lacks one."""
        r = self.r
        text = lowering.text(SHEET_SETTINGS, self.time_filter(r.choice((0, 1, 2))), r.choice((lowering.RUST, lowering.GEOPACKAGE))).encode()
        names = list('abcd') if r.random() < .9 else list('abc')
        r.shuffle(names)
        value = lambda: b'2024-01-0%d' % r.randint(1, 5) if r.random() < .9 else any_text(r).encode()
        return text, records.row([(n.encode(), None if r.random() < .2 else value()) for n in names])

    def stamped(self):
        """The text of a filter about timestamps by either call that writes, on a row of DATETIME values, or of instants of every width."""
        r = self.r
        tree = next(stamps.joined(r, 1)) if r.random() < .3 else r.choice(STAMPED)
        text = lowering.text(SHEET_SETTINGS, tree, r.choice((lowering.RUST, lowering.GEOPACKAGE))).encode()
        return text, records.row(stamps.cells(r, r.choice((stamps.VALUES, stamps.MIXED)), .1))

    def brackets(self):
        """62 to 66 brackets, with NOTs and tests between."""
        r = self.r
        n, text, tail = r.choice((62, 63, 64, 64, 65, 65, 66)), b'', b''
        for _ in range(n):
            text += r.choice((b'(', b'(', b'NOT(', b'NOT NOT (', b"a='x'AND("))
            tail += r.choice((b')', b')', b') OR b IS NULL', b') '))
        if r.random() < .1:
            tail = tail[:-2]
        return text + r.choice((b'TRUE', b"a<'y'", b'NULL', b'zz=a', b'')) + tail, records.row([(b'a', b'x'), (b'b', None)])

    def names(self):
        """Names near one another, in both writings, at the edges of the name rule."""
        r = self.r
        known = [(b'n' * 64, b'x'), (b'n' * 63, None), (b'And_', b'y'), (b'nullx', b''), (b'_', b'~' * 64), (b'A', b'2'), (b'aa', b'q'),
                 (b'AB', None)]
        cells = r.sample(known, r.randint(1, 8))

        def pick():
            if r.random() < .75:
                n = r.choice(cells)[0]
            else:
                n = r.choice((r.choice(known)[0], r.choice(known)[0].swapcase(),
                              r.choice((b'n' * 65, b'aNd', b'isnull', b'Like', b'Order', b'group', b'nulls', b'1a', b'a1', b''))))
            return b'"' + n + b'"' if r.random() < .5 else n

        return b' OR '.join(b'%s %s %s' % (pick(), r.choice(readings.SIGNS), pick()) for _ in range(r.randint(1, 3))), records.row(cells)

    def wide_row(self):
        """Up to some hundred columns in any order, some equal in another letter case."""
        r = self.r
        count = r.choice((10, 40, 150))
        made = list({b'%s%d' % (r.choice((b'c', b'Col', b'x_')), r.randrange(1000)): None for _ in range(count)})
        if r.random() < .1:
            made.insert(r.randrange(len(made)), r.choice(made).swapcase())
        cells = [(n, r.choice((None, b'', b'v%d' % r.randrange(9)))) for n in made]
        ask = [r.choice(made) if r.random() < .995 else b'gone' for _ in range(r.choice((2, 20, 60)))]
        return b' OR '.join(b'%s<%s' % pair for pair in zip(ask[::2], ask[1::2])), records.row(cells)

    def limits(self):
        """Texts of 65,534 to 65,536 bytes, rows of 32,767 to 32,769."""
        r = self.r
        text = reading_edges.sized_text(SQL + r.choice((-1, 0, 1))) if r.random() < .5 else b'AAA IS NULL'
        row = reading_edges.sized_row(ROW + r.choice((-1, 0, 1))) if r.random() < .6 else records.row([(b'a', b'x')])
        return text, (row[:-1] if r.random() < .1 else row)

    def too_long(self):
        r = self.r
        if r.random() < .5:
            return r.choice((b' ', b'(', b'a')) * (SQL + r.choice((1, 1, 2, 900))), r.choice((b'', b'\0', records.row([(b'a', b'x')])))
        return r.choice((b'TRUE', b'', b'(')), bytes(ROW + r.choice((1, 1, 2, 900)))

    def empty(self):
        return self.r.choice((b'', b'', b'TRUE')), self.r.choice((b'', b'', records.row([(b'a', b'x')])))
