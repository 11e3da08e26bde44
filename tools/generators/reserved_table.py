#!/usr/bin/env python3
"""Prints the table of reserved words and the families of first letters as crates/keyword/src/table.rt has them, from the model's words.

usage: python3 tools/generators/reserved_table.py

Nobody has to believe it: a table that lacks a word or has another one, and a family that lacks one, is not proved."""
import os
import sys

sys.path.insert(0, os.path.join(os.path.dirname(os.path.abspath(__file__)), '..'))
from model.names import RESERVED

HEAD, IN_A_LINE = 3, 6    # bytes for each length; lengths in a line


def mark(word):
    return (9 * len(word) + 2 * (word[1] + word[-1])) % 64


def table(words):
    """The lines of the constant, and how many bytes it has."""
    longest = max(map(len, words))
    heads, place = [], HEAD * (longest + 1)
    for n in range(longest + 1):
        count = sum(len(word) == n for word in words)
        heads.append('\\x%02x\\x%02x\\x%02x' % (place % 256, place // 256, count))
        place += n * count
    lines = [''.join(heads[k:k + IN_A_LINE]) for k in range(0, len(heads), IN_A_LINE)]
    return lines + [word.decode() for word in sorted(words, key=lambda word: (len(word), word))], place


def families(words):
    for letter in sorted({word[0] for word in words}):
        mine = [word for word in words if word[0] == letter]
        lengths, marks = ({f(word) for word in mine} for f in (len, mark))
        yield '%d => Family(0x%05x, 0x%016x), // %c' % (letter % 32, sum(1 << n for n in lengths), sum(1 << n for n in marks), letter)


def main():
    lines, size = table(RESERVED)
    print('const RESERVED: &[u8; %d] = b"\\\n%s";\n' % (size, '\\\n'.join('    ' + line for line in lines)))
    print('\n'.join('        ' + line for line in families(RESERVED)))


if __name__ == '__main__':
    sys.exit(__doc__) if len(sys.argv) != 1 else main()
