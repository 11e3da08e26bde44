#!/usr/bin/env python3
"""Of the older kit, whose proof files (Proof.antt) counted steps back by `.before`; today's have facts by name.

Fills needs of a proof file from answers that name facts instead of counting steps.

usage: fill.py PROOF ANSWERS.py [PATHS]

PROOF is crates/NAME/proofs/FOLDER/Proof.antt, as the check prints it or as it stands. ANSWERS.py defines
  A = {'need': 'term' or ('names to unfold', 'term')}     in a term {word-at} stands for `c .before .. .word-at` and {START} for the start,
                                                         as far back as PATHS says; .b3 stands for .before .before .before
  TOP = 'lines to put on top'                            may be left out
PATHS is what the kit's patterns print with paths.py for the function, one line `Need-NAME : 0 fact | 1 fact ..` for each need; in a cycle's
file a line `== function` goes before those of each function, and needs are named function-need, as in the file."""
import re
import runpy
import sys


def read_paths(name):
    """need -> {fact: how many steps back}"""
    paths, function = {}, ''
    for line in open(name, encoding='utf-8'):
        if line.startswith('== '):
            function = line[3:].strip().replace('_', '-') + '-'
        m = re.match(r'Need-(\S+) : (.*)$', line)
        if m:
            facts = (part.strip().split(' ', 1) for part in m.group(2).split(' | '))
            paths[function + m.group(1)] = {fact.replace('.laid', ''): int(n) for n, fact in facts}
    return paths


def resolved(need, term, paths):
    def fact(m):
        steps = ' .before' * paths[need][m.group(1)]
        return 'c' + steps + ('' if m.group(1) == 'START' else ' .' + m.group(1))
    if paths:
        term = re.sub(r'\{([\w-]+)\}', fact, term)
    return re.sub(r'\.b(\d+)\b', lambda m: ' '.join(['.before'] * int(m.group(1))), term)


def fill(text, answers, paths):
    for need, answer in answers.items():
        unfolding, term = answer if isinstance(answer, tuple) else (None, answer)
        found = list(re.finditer(r'^(?:unfolding [^\n]*\n)?(%s(?: [^\s=]+)*) =(?:.|\n(?!\n))*' % re.escape(need), text, re.M))
        if len(found) != 1:
            sys.exit('%s: %d places in the file' % (need, len(found)))
        m = found[0]
        head = 'unfolding %s\n' % unfolding if unfolding else ''
        text = text[:m.start()] + head + m.group(1) + ' = ' + resolved(need, term, paths) + text[m.end():]
    return text


def main():
    if len(sys.argv) not in (3, 4):
        sys.exit(__doc__)
    answers = runpy.run_path(sys.argv[2])
    paths = read_paths(sys.argv[3]) if len(sys.argv) == 4 else {}
    with open(sys.argv[1], encoding='utf-8') as f:
        text = answers.get('TOP', '') + f.read()
    text = fill(text, answers['A'], paths)
    with open(sys.argv[1], 'w', encoding='utf-8') as f:
        f.write(text)


if __name__ == '__main__':
    main()
