#!/usr/bin/env python3
"""Spells the repository's own definitions and lemmas as today's Rattle does: words in snake case, a dash only between two names.

usage: names.py [--list]      once, at the top, on what port.py of the kit made

    doubleQuote -> double_quote, all-next -> all_next; drop-all stays where `drop` and `all` are both names of definitions

It rewrites specs/ and proofs/ of each crate, the clauses and imports of src/, must-fail edits, and names in back quotes in docs/ and README.md.
Types and modules are in upper camel case already. A name that an outside module has, and one that would fall together with another, stays."""
import glob
import re
import sys

IDENT = r"[A-Za-z_][A-Za-z0-9_'′₀-₉-]*"
WORD = re.compile(r"(?<![A-Za-z0-9_'′₀-₉·◌«-])" + IDENT + r"(?![A-Za-z0-9_'′₀-₉·◌»])")
DECLARED = re.compile(r"^\s*(?:abbrev |unfoldable )?(?:pub )?(?:data |record )?(" + IDENT + r")((?: [({][^=]*?[)}])*) : ", re.M)
LISTED = re.compile(r"^\s*(?:abbrev |unfoldable )?(?:pub )?((?:" + IDENT + r" )+" + IDENT + r") : ", re.M)
USED = re.compile(r"^(?:pub |unfoldable )*use ([^\s{]+?)(?:\.\{([^}]*)\})?(?: as \S+)?$", re.M)
CAMEL = re.compile(r"^[a-z][A-Za-z0-9]*[A-Z]")


def read(path):
    with open(path, encoding='utf-8') as f:
        return f.read()


def laws():
    return sorted(glob.glob('crates/*/specs/**/*.antt', recursive=True) + glob.glob('crates/*/proofs/*.antt'))


def answers():
    return sorted(set(glob.glob('crates/*/proofs/**/*.antt', recursive=True)) - set(laws()))


def outside():
    """Names that come from a module outside this repository."""
    crates = {p.split('/')[1] for p in glob.glob('crates/*/src')}
    found = set()
    for path in laws() + answers():
        for module, names in USED.findall(read(path)):
            parts = module.split('.')
            if parts[0] != 'Rattle' or parts[1] not in crates:
                found |= {n.strip().split(' as ')[0] for n in names.split(',')} | {parts[-1]}
    return found


def declared():
    """Names declared in definitions and laws; those of definitions alone."""
    every, words = set(), set()
    for path in laws():
        text = re.sub(r"--[^\n]*", "", read(path))
        for line in text.split('\n'):
            m = DECLARED.match(line)
            names = [m.group(1)] if m else []
            m = LISTED.match(line)
            names += m.group(1).split() if m else []
            every |= set(names)
            if line.startswith(('abbrev', 'unfoldable')) or re.match(r"\s+(pub )?[a-z]\S* : ", line) is None:
                words |= {n for n in names if '-' not in n and re.match(r"(abbrev|unfoldable)", line)}
    return every, words


def snake(name):
    return re.sub(r"([a-z0-9])([A-Z])", lambda m: m.group(1) + '_' + m.group(2).lower(), name)


def joined(name, words):
    """A dash stays between a name at the front and another name; a plain word is added with `_`."""
    parts = name.split('-')
    out = parts[0]
    for i, part in enumerate(parts[1:], 1):
        tails = ['_'.join(parts[i:j]) for j in range(i + 1, len(parts) + 1)]
        is_name = parts[0] in words and any(t in words for t in tails)
        out += ('-' if is_name else '_') + part
    return out


def renamed():
    every, words = declared()
    kept = outside()
    known = {snake(w) for w in words} | {'length', 'take', 'drop', 'get_or', 'set', 'append', 'suc', 'zero'}
    new = {}
    camel = {w for p in laws() + answers() for w in WORD.findall(re.sub(r"--[^\n]*", "", read(p))) if CAMEL.match(w) and '-' not in w}
    for name in sorted(every | camel):
        if name in kept or not re.match(r"[a-z]", name) or name.endswith('-'):
            continue
        to = joined(snake(name), known).replace('′', "'")
        if to != name:
            new[name] = to
    groups = {}
    for name in every | set(new):
        groups.setdefault(new.get(name, name), []).append(name)
    for to, names in groups.items():
        if len(names) > 1 or to in kept:
            first = sorted(names, key=lambda n: ('-' in n, n not in words, n))[0]
            for n in names:
                if n != first or (to in kept and n not in kept):
                    new[n] = to + '_lem'
    return new


def turned(text, new, dashes_after_dot=False):
    def one(m):
        w, before = m.group(0), text[max(0, m.start() - 1):m.start()]
        if w not in new:
            return w
        if before == '.' and '-' in w and not re.search(r"(?:^|[\s(])(?:[A-Za-z_]+\.)*[A-Z][A-Za-z0-9_]*\.$", text[max(0, m.start() - 80):m.start()]):
            return w
        return new[w]
    return WORD.sub(one, text)


def quoted(text, new):
    """Turned outside quoted texts; in comments only what cannot be an English word."""
    parts = re.split(r'("(?:\\.|[^"\\\n])*"|--[^\n]*)', text)
    return ''.join(part if part.startswith('"') else commented(part, new) if part.startswith('--') else turned(part, new) for part in parts)


def commented(text, new):
    camel = {n: to for n, to in new.items() if CAMEL.match(n)}
    return re.sub(r"`[^`\n]*`", lambda m: turned(m.group(0), new), turned(text, camel))


def clauses(text, new):
    """Only `ghost use` lines and the braces of clauses of a source file."""
    def ghost(m):
        return turned(m.group(0), new)
    text = re.sub(r"(?m)^\s*ghost use [^;]*;", ghost, text)
    return re.sub(r"(?m)^\s*(?:requires|ensures)\*?[^{\n]*\{[^\n]*\}|^\s*ghost [a-z_]*: \{[^\n]*\}", ghost, text)


def main():
    if '--list' in sys.argv:
        for name, to in renamed().items():
            print(name, to)
        return
    # a name that ended in capitals may have become a plain word: a second turn sees it
    turn(renamed())
    turn(renamed())


def turn(new):
    for path in laws() + answers():
        write(path, quoted(read(path), new))
    for path in glob.glob('crates/*/src/**/*.rt', recursive=True):
        write(path, clauses(read(path), new))
    for path in glob.glob('crates/*/must-fail/*.edit'):
        text = read(path)
        write(path, quoted(text, new) if re.search(r"^file: (specs|proofs)/", text, re.M) else clauses_of_edit(text, new))
    for path in glob.glob('docs/**/*.md', recursive=True) + ['README.md']:
        write(path, re.sub(r"`[^`\n]*`", lambda m: turned(m.group(0), new), read(path)))


def clauses_of_edit(text, new):
    return re.sub(r"(?m)^((?:old|new):\s*(?:requires|ensures|ghost)[^\n]*)$", lambda m: turned(m.group(0), new), text)


def write(path, text):
    if text != read(path):
        with open(path, 'w', encoding='utf-8') as f:
            f.write(text)


if __name__ == '__main__':
    main()
