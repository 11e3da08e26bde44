#!/usr/bin/env python3
"""Of the older kit, whose proof files (Proof.antt) counted steps back by `.before`; today's have facts by name.

Answers of a proof file with facts by name, for fill.py: the file can then be made anew for changed code, and only what changed is written by hand.

usage: facts.py PROOF PATHS > ANSWERS.py

PATHS is what the kit's paths.py prints for the code that PROOF is for: make it before the code changes. Needs that `search needs` closes are
left out. A term comes out on one line (no `where` and no comment in it); a fact whose name stands twice on a path stays counted."""
import re
import sys

import fill


def named(term, facts):
    """`c .before .before .word-at` as {word-at}; facts: how many steps back -> fact"""
    def fact(m):
        steps, field = m.group(1).count('.before'), m.group(2)
        if facts.get(steps) == 'START':
            return '{START} .' + field
        return '{%s}' % field if facts.get(steps) == field else m.group(0)
    return re.sub(r'\bc((?: \.before)*) \.([\w-]+)', fact, term)


def answers(text, paths):
    for block in text.split('\n\n'):
        need = re.match(r'([a-z][\w-]*)\s*:', block)
        found = need and re.search(r'^(?:unfolding ([^\n]*)\n)?%s(?: [^\s=:]+)* =((?:.|\n)*)$' % re.escape(need.group(1)), block, re.M)
        if found and found.group(2).strip() != 'search needs':
            steps = {n: f for f, n in paths.get(need.group(1), {}).items()}
            term = named(' '.join(found.group(2).split()), steps)
            yield need.group(1), (found.group(1), term) if found.group(1) else term


def main():
    if len(sys.argv) != 3:
        sys.exit(__doc__)
    with open(sys.argv[1], encoding='utf-8') as f:
        text = f.read()
    print('A = {')
    for need, answer in answers(text, fill.read_paths(sys.argv[2])):
        print('    %r: %r,' % (need, answer))
    print('}')


if __name__ == '__main__':
    main()
