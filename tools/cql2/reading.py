"""Reads the JSON text of a filter. Numbers are kept as they are written, so that no digit is lost to a float."""
import json
import re

from .errors import BadInput, Refused


class Number:
    """A JSON number, exactly: sign, the digits without zeros at either end, and the power of ten after them."""

    def __init__(self, text):
        self.text = text
        body, _, power = text.lower().lstrip('-').partition('e')
        whole, _, part = body.partition('.')
        digits = (whole + part).lstrip('0')
        self.digits = digits.rstrip('0')
        self.power = int_of(power or '0') - len(part) + len(digits) - len(self.digits)
        self.negative = text.startswith('-') and self.digits != ''
        if not self.digits:
            self.power = 0

    def point(self):
        """How many digits stand before the decimal point; negative for zeros after it."""
        return len(self.digits) + self.power

    def __repr__(self):
        return shortened(self.text)


def int_of(text):
    """An exponent as a number; one with more digits than any use could have counts as a billion."""
    sign = -1 if text.startswith('-') else 1
    digits = text.lstrip('+-').lstrip('0') or '0'
    return sign * (int(digits) if len(digits) < 10 else 10 ** 9)


def shortened(text, most=40):
    return text if len(text) <= most else text[:most - 1] + '…'


def read_filter(data, name='the filter'):
    """The value of a filter's bytes, or BadInput; `name` is the filter's, with that of its file."""
    try:
        text = data.decode('utf-8-sig')
    except UnicodeDecodeError as e:
        raise BadInput('%s is not UTF-8 text (byte %d)' % (name, e.start))
    if not text.strip():
        raise BadInput('%s is empty' % name)
    try:
        return json.loads(text, parse_int=Number, parse_float=Number, parse_constant=no_number, object_pairs_hook=members)
    except json.JSONDecodeError as e:
        if is_text_encoding(text):
            raise BadInput('%s is CQL2-Text, and CQL2-JSON is due, as {"op": "=", "args": [{"property": "label"}, "cup"]}' % name)
        raise BadInput('%s is not JSON: %s at line %d, column %d' % (name, e.msg.removesuffix(' starting at'), e.lineno, e.colno))
    except RecursionError:
        raise Refused(4, '%s lies deeper than any caller\'s levels' % name)


TEXT_WORDS = re.compile(r'''^(?=\s*[("\w])[^{]*?(\w["')]?\s*[=<>]|\s(and|or|is|in|like|between)\s|^\s*not\s|\b(casei|accenti|[sta]_\w+)\s*\()''', re.I | re.S)


def is_text_encoding(text):
    """Whether this looks like CQL2's other encoding: an operator stands between names, or before its operands, and no object begins before it."""
    return TEXT_WORDS.match(text) is not None and not text.endswith('.json')


def no_number(text):
    raise BadInput('%s is no JSON number' % text)


def members(pairs):
    """An object, in which no name may stand twice: which of the two would count is nowhere said."""
    found = {}
    for name, value in pairs:
        if name in found:
            raise BadInput('the member "%s" stands twice in one object' % shortened(name))
        found[name] = value
    return found
