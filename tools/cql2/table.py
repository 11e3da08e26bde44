"""Rows as an aligned table of plain text."""
import struct
import unicodedata

MOST = 32    # a cell that is wider is cut


def width(text):
    """Columns that a terminal takes for the text."""
    return sum(0 if unicodedata.combining(c) else 2 if unicodedata.east_asian_width(c) in 'WF' else 1 for c in text)


def point(data):
    """The text of a GeoPackage's point in two dimensions, without envelope; None for all else."""
    if len(data) != 29 or data[:4] != b'GP\0\1' or data[8:13] != b'\1\1\0\0\0':
        return None
    return 'POINT (%.10g %.10g)' % struct.unpack('<dd', data[13:])


def cell(value):
    if value is None:
        return 'NULL'
    if isinstance(value, bytes):
        return point(value) or '%d bytes' % len(value)
    text = ''.join(c if c.isprintable() else c.encode('unicode_escape', 'backslashreplace').decode() for c in str(value)[:MOST + 1])
    if width(text) <= MOST:
        return text
    while width(text) > MOST - 1:
        text = text[:-1]
    return text + '…'


def padded(text, columns, right):
    space = ' ' * (columns - width(text))
    return space + text if right else text + space


def lines(names, rows):
    """The header, a rule, and a line for each row; columns of numbers are set to the right."""
    cells = [[cell(value) for value in row] for row in rows]
    names = [cell(name) for name in names]
    widths = [max(width(row[k]) for row in [names] + cells) for k in range(len(names))]
    right = [any(isinstance(row[k], (int, float)) for row in rows) for k in range(len(names))]
    yield '  '.join(padded(*x) for x in zip(names, widths, right)).rstrip()
    yield '  '.join('-' * w for w in widths)
    for row in cells:
        yield '  '.join(padded(*x) for x in zip(row, widths, right)).rstrip()
