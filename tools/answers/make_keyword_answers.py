#!/usr/bin/env python3
"""Writes SQLite's keywords wherever a name can stand, for crates/replay: data/keyword_trees and data/keyword_readings and their lines of stdout.

usage: python3 tools/answers/make_keyword_answers.py

The words are those of sqlite3_keyword_name of libsqlite3 3.40.1, which the list tools/model/sqlite_keywords.txt keeps, and DIV, FALSE and TRUE. Each
is refused in small, capital and mixed letters as Id and Function (6), as collation (1), as a row's name (11), bare and in quotes in a text (12); its
neighbours, with a letter or an underscore more or a letter less, pass. The answers are these numbers, and not the model's, which must have the same.

Writes nothing and exits with 1 if the library is another release or has other words than the list, if crates/keyword/specs/Keywords.antt has, or if
there are not 147."""
import collections
import ctypes
import os
import re
import sys

sys.path.insert(0, os.path.join(os.path.dirname(os.path.abspath(__file__)), '..'))
from answers import counts, stored
from model import calls
from model.names import LIST
from model.records import SHEET_SETTINGS, function, ident, null, row, settings_bytes, settings_record
from model.refusals import FIELD, GRAMMAR, ROW, SETTINGS

RELEASE, WORDS = b'3.40.1', 147
OTHERS = b'DIV', b'FALSE', b'TRUE'    # document 01's words that are no keywords
DEFINED = os.path.join(stored.CRATES, 'keyword', 'specs', 'Keywords.antt')
SHEET, A = settings_record(SHEET_SETTINGS), ident(b'a')


def of_library():
    """The keywords in the library's order."""
    library = ctypes.CDLL('libsqlite3.so.0')
    library.sqlite3_libversion.restype = ctypes.c_char_p
    if library.sqlite3_libversion() != RELEASE:
        sys.exit('libsqlite3 is release %s, and the list is that of %s' % (library.sqlite3_libversion().decode(), RELEASE.decode()))
    words, start, size = [], ctypes.c_void_p(), ctypes.c_int()
    for k in range(library.sqlite3_keyword_count()):
        library.sqlite3_keyword_name(k, ctypes.byref(start), ctypes.byref(size))
        words.append(ctypes.string_at(start, size.value))
    return words


def kept():
    with open(LIST, 'rb') as f:
        return f.read().split()


def defined():
    """The quoted words of the definition."""
    with open(DEFINED, 'rb') as f:
        return re.findall(rb'"([A-Z_]+)" \xe2\x88\xb7', f.read())


def mixed(word):
    return bytes(b | 32 if k % 2 and b != ord('_') else b for k, b in enumerate(word))


def neighbours(word, words):
    near = word + b'X', word + b'_', b'_' + word, word[:-1], word[1:], mixed(word) + b'x'
    return [n for n in near if n.upper() not in words]


def tree_cases(name, refused):
    yield SHEET, ident(name), FIELD if refused else 0
    yield SHEET, function(name, A), FIELD if refused else 0
    for k in range(3):
        three = [name if j == k else other for j, other in enumerate((b'NC', b'NA', b'NCA'))]
        yield settings_bytes(7, *three), null(), SETTINGS if refused else 0


def reading_cases(name, refused):
    held = row([(b'a', b'x')]) if refused else row([(name, b'x')])
    yield b'TRUE', row([(name, b'x')]), ROW if refused else 'true'
    yield name + b' IS NOT NULL', held, GRAMMAR if refused else 'true'
    if name.upper() != b'NULL':    # which is an atom
        yield b"'x' = " + name, held, GRAMMAR if refused else 'true'
    yield b'"' + name + b'" IS NULL', held, GRAMMAR if refused else 'false'


def main():
    words = of_library()
    wrong = [what for what, found in (('kept', kept()), ('defined', defined())) if sorted(found) != sorted(words)]
    if wrong or len(set(words)) != WORDS:
        sys.exit('the library has %d words; other words are %s' % (len(set(words)), ' and '.join(wrong) or 'nowhere'))
    reserved = {*words, *OTHERS}
    names = [(w, True) for word in [*words, *OTHERS] for w in (word, word.lower(), mixed(word))]
    names += dict.fromkeys((n, False) for word in words for n in neighbours(word, reserved)).keys()
    trees = [case for one in names for case in tree_cases(*one)]
    texts = [case for one in names for case in reading_cases(*one)]
    other = [c for c in trees if calls.check(*c[:2]) != c[2]] + [c for c in texts if calls.read(*c[:2]) != c[2]]
    print('%d words, %d neighbours: %d cases in trees and settings, %d in rows and texts' % (
        len(words), sum(not refused for _, refused in names), len(trees), len(texts)))
    for case in other[:20]:
        print('the model differs:', case)
    counts.stop_if_wrong(len(other))
    stored.write_cases('keyword_trees', [(s, t, bytes([n])) for s, t, n in trees], stored.tree_line(collections.Counter(n for *_, n in trees)))
    read = [stored.reading_case(*case) for case in texts]
    stored.write_cases('keyword_readings', read, stored.reading_line(collections.Counter(n[0] for *_, n in read)))


if __name__ == '__main__':
    sys.exit(__doc__) if len(sys.argv) != 1 else main()
