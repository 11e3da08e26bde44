"""Values of Str and of rows (document 02, slip 2): right ones of every length of character, with apostrophes and without, and every class of bytes
that no such value has."""

LABELS = [text.encode() for text in (
    '', "'", "''", "'''", "''''", "'''''", "O'Ring 5 mm", "'O'Ring'", "it''s", "5' 6''", "a'", "'a", "a''", "''a", "a'b", "a''b", 'Flügel', 'Flu\u0308gel',
    "Flügel d'été", 'œuf', 'Ω 5 kΩ', '歯車', '🔩', "🔩'🔧", "''é''", 'O Ring', 'O(Ring', 'O&Ring', 'Flugel', 'Flz', 'Fl', 'a', 'b', 'A', '~', ' ', '  ', '"',
    'a"b', '%_', '\\', '--', "';--", 'a(b')]
EDGES = [chr(code).encode() for code in (    # each line of the standard's Table 3-7: its first and last character; and some on their own
    0x20, 0x7e, 0x80, 0x9f, 0xa0, 0x7ff, 0x800, 0xfff, 0x1000, 0xcfff, 0xd000, 0xd7ff, 0xe000, 0xfeff, 0xfffd, 0xfffe, 0xffff, 0x10000, 0x3ffff,
    0x40000, 0xfffff, 0x100000, 0x10fffe, 0x10ffff)]
VALUES = [*LABELS, *EDGES, *(b"'" + edge + b"'" for edge in EDGES[2:])]

CONTROLS = [bytes([code]) for code in (*range(0x20), 0x7f)]
BROKEN = {
    'a lone continuation': [b'\x80', b'\x8f', b'\x90', b'\x9f', b'\xa0', b'\xa7', b'\xbf', b'\x80\x80', b'\xc3\xa9\xa9', b'\xf0\x9f\x94\xa9\x80'],
    'overlong, 2 bytes': [b'\xc0\x80', b'\xc0\xa7', b'\xc0\xbf', b'\xc1\x80', b'\xc1\xa1', b'\xc1\xbf'],
    'overlong, 3 bytes': [b'\xe0\x80\x80', b'\xe0\x80\xa7', b'\xe0\x82\x80', b'\xe0\x9f\xbf'],
    'overlong, 4 bytes': [b'\xf0\x80\x80\x80', b'\xf0\x80\x80\xa7', b'\xf0\x82\x82\xac', b'\xf0\x8f\xbf\xbf'],
    'a surrogate': [b'\xed\xa0\x80', b'\xed\xad\xbf', b'\xed\xae\x80', b'\xed\xb0\x80', b'\xed\xbf\xbf', b'\xed\xa0\xbd\xed\xb4\xa9'],
    'above U+10FFFF': [b'\xf4\x90\x80\x80', b'\xf4\xbf\xbf\xbf', b'\xf5\x80\x80\x80', b'\xf7\xbf\xbf\xbf', b'\xf8\x88\x80\x80\x80'],
    'bytes of no sequence': [bytes([code]) for code in (0xc0, 0xc1, *range(0xf5, 0x100))],
    'cut short': [b'\xc2', b'\xdf', b'\xe0', b'\xe0\xa0', b'\xe2', b'\xe2\x82', b'\xed', b'\xed\x9f', b'\xef', b'\xef\xbf', b'\xf0', b'\xf0\x90',
                  b'\xf0\x9f\x94', b'\xf1', b'\xf1\x80', b'\xf1\x80\x80', b'\xf4', b'\xf4\x8f', b'\xf4\x8f\xbf'],
    'a control byte': CONTROLS}
ILL_FORMED = [value for some in BROKEN.values() for value in some]


def around(value):
    """The value alone, behind and before other characters, and twice."""
    return dict.fromkeys((value, b'a' + value, value + b'a', 'é'.encode() + value, value + '🔩'.encode(), b"'" + value, value + b"'",
                          b'abcdefgh' + value + b'ij', value + value))


def sequences():
    """Every lead byte with bytes at the edges of what may follow it, two to four in all."""
    later = b'\x7f\x80\x8f\x90\x9f\xa0\xbf\xc0'
    for lead in range(0xc0, 0x100):
        for second in later:
            yield bytes([lead, second])
            if lead >= 0xe0:
                yield from (bytes([lead, second, third]) for third in b'\x7f\x80\xbf\xc0')
            if lead >= 0xf0:
                yield from (bytes([lead, second, 0x80, fourth]) for fourth in b'\x7f\x80\xbf\xc0')
                yield from (bytes([lead, second, third, 0xbf]) for third in b'\x7f\xbf\xc0')


def literal(value):
    """As it stands in an SQL text, right or not."""
    return b"'" + value.replace(b"'", b"''") + b"'"


SOME = ["'", "'", "''", 'a', 'b', ' ', 'ü', 'é', 'Ω', '車', '🔩', '"', *map(chr, (0x80, 0x9f, 0x7ff, 0x800, 0xffff, 0x10000, 0x10ffff))]


def random_text(r, most=12):
    """A right value of about so many characters at most: apostrophes often, every length of character."""
    return ''.join(r.choice(SOME) for _ in range(r.choice((0, 1, 1, 2, 3, 5, most))))


def broken_text(r):
    """A random value with bytes of one class in it, or a right one cut anywhere."""
    value, at = random_text(r).encode(), r.random()
    if at < .3 and value:
        return value[:r.randrange(len(value))]
    place = r.choice((0, len(value), r.randrange(len(value) + 1)))
    return value[:place] + r.choice(r.choice(list(BROKEN.values()))) + value[place:]
