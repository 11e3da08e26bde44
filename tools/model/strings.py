"""What texts in records may hold, and how a string stands in quotes (document 01, "Records" and "Truth"; document 02, slip 2). Str and row values
have one rule."""
import re

CONTROLS = re.compile(rb'[\x00-\x1f\x7f]')
QUOTED = rb"'(?P<text>[^']*(?:''[^']*)*)'(?!')"    # a string in an SQL text ends at the first apostrophe that is not doubled; between is `text`
SPATIAL = re.compile(rb'[A-Za-z0-9 ,()\-.]*\Z')


def is_str(data):
    """Well-formed UTF-8, as Python's strict decoder has it, without the bytes 00 to 1F and 7F. test_model.py holds the decoder against the
    Unicode standard's Table 3-7."""
    try:
        data.decode('utf-8', 'strict')
    except UnicodeDecodeError:
        return False
    return CONTROLS.search(data) is None


def is_spatial(data):
    return SPATIAL.match(data) is not None


def quoted(text):
    """A str as the lowering writes it: between apostrophes, each of its own doubled."""
    return "'" + text.replace("'", "''") + "'"


def value_of(written):
    """The value of the bytes between the marks, as the reader takes it: of two apostrophes one."""
    return written.replace(b"''", b"'")
