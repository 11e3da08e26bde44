#!/usr/bin/env python3
"""Brings must-fail edits over to the turned files: the same wrong meaning, in today's spelling.

usage: edits.py OLD TURNED VARIANTS      once, at the top, after port.py and names.py: two edits (row, order) were mended by hand after it

OLD is the commit before port.py. TURNED is a clone of it in which each edit was applied to the old text of its file, the outcome saved
beside that file, and port.py run over it all; VARIANTS is a JSON list [edit, file, outcome] of paths in it. What an edit changes is
therefore the difference between TURNED's file and its outcome, both turned by names.map. An edit that says just this of the present file
stays as it is; else the words of its pairs are turned; else its pairs are written anew, a pair for each changed line. It prints each edit
that it wrote, and ends with 1 if one is left that it could not write."""
import difflib
import json
import os
import re
import subprocess
import sys

from names import clauses, quoted, read, write

HERE = os.path.dirname(os.path.abspath(__file__))


def turned(path, new):
    """The text of a file of TURNED, in the repository's own names of today."""
    turn = quoted if path.endswith('.antt') else clauses
    text = turn(turn(read(path), new), new)
    return re.sub(r"(?m)^\s*#\[cycle\(.*\)\]\n", "", text)


def parsed(text):
    """An edit's parts in order: comment and `file:` lines as texts, pairs as (old, new)."""
    parts, old = [], None
    for line in text.rstrip('\n').split('\n'):
        if line.startswith('old: '):
            old = line[5:]
        elif line.startswith('new:'):
            parts.append((old, line[5:]))
        else:
            parts.append(line)
    return parts


def spelled(parts):
    return ''.join(f"old: {p[0]}\nnew: {p[1]}\n".replace('new: \n', 'new:\n') if isinstance(p, tuple) else p + '\n' for p in parts)


def made(parts, crate):
    """(file, before, after) for each file that the parts change; None where an old text does not stand exactly once."""
    name, texts = None, {}
    for p in parts:
        if isinstance(p, tuple):
            text = texts.setdefault(name, read(name))
            if text.count(p[0]) != 1:
                return None
            texts[name] = text.replace(p[0], p[1])
        elif p.startswith('file: '):
            name = f"crates/{crate}/{p[6:].strip()}"
    return [(f, read(f), t) for f, t in texts.items()]


def changed(before, after):
    """Blocks of lines that went and that came."""
    a, b = before.split('\n'), after.split('\n')
    steps = difflib.SequenceMatcher(None, a, b, autojunk=False).get_opcodes()
    return [(a[i:j], b[k:m]) for kind, i, j, k, m in steps if kind != 'equal']


def squeezed(before, after):
    """What went and what came, whatever the layout."""
    blocks = changed(before, after)
    return [re.sub(r",(?=[\])}])", "", re.sub(r"\s+", "", ''.join(''.join(block[i]) for block in blocks))) for i in (0, 1)]


def whole(old, new, text):
    """A pair for a changed line: the line, from its first word if that stands once."""
    for cut in (len(old) - len(old.lstrip()), 0):
        if text.count(old[cut:].rstrip()) == 1:
            return old[cut:].rstrip(), new[cut:].rstrip()
    return None


def worded(parts, new):
    """The parts with each pair's own words turned."""
    return [tuple(turn_words(t, new) for t in p) if isinstance(p, tuple) else p for p in parts]


def turn_words(text, new):
    return quoted(quoted(text, new), new)


def anew(parts, crate, turns):
    """The parts with pairs from the turned files, or None."""
    out, name, texts, todo = [], None, {}, {}
    for p in parts:
        if isinstance(p, str):
            out.append(p)
            name = f"crates/{crate}/{p[6:].strip()}" if p.startswith('file: ') else name
            continue
        if name not in todo:
            blocks = changed(*turns[name])
            if any(len(a) != len(b) for a, b in blocks):
                return None
            todo[name] = [line for a, b in blocks for line in zip(a, b)]
            texts[name] = read(name)
        if not todo[name]:
            return None
        line = whole(*todo[name].pop(0), texts[name])
        if line is None:
            return None
        texts[name] = texts[name].replace(*line)
        out.append(line)
    return None if any(todo.values()) else out


def main():
    old, top, variants = sys.argv[1:]
    new = dict(line.split() for line in open(os.path.join(HERE, 'names.map'), encoding='utf-8') if len(line.split()) == 2)
    edits = {}
    with open(variants, encoding='utf-8') as f:
        for edit, name, outcome in json.load(f):
            edits.setdefault(edit, {})[name] = (turned(os.path.join(top, name), new), turned(os.path.join(top, outcome), new))
    left = 0
    for edit, turns in edits.items():
        crate = edit.split('/')[1]
        was = subprocess.run(['git', 'show', f'{old}:{edit}'], capture_output=True, text=True, check=True).stdout
        wanted = {f: squeezed(*turns[f]) for f in turns}
        for parts in (parsed(was), worded(parsed(was), new), anew(parsed(was), crate, turns)):
            got = parts and made(parts, crate)
            if got and {f: squeezed(a, b) for f, a, b in got} == wanted:
                if spelled(parts) != was:
                    print(edit)
                write(edit, spelled(parts))
                break
        else:
            left += 1
            print('left:', edit)
    sys.exit(left > 0)


if __name__ == '__main__':
    main()
