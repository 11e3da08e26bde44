#!/usr/bin/env python3
"""Holds the table of must-fail edits in docs/PROVING.md against what the gate said of them: an edit that is refused elsewhere than at the contract or law
that it breaks may be refused for another reason.

usage: .ci/run | tee LOG; python3 tools/proofs/first_errors.py [--write] LOG      LOG may be that of `rt must-fail` too

The place is the file and the goal that the gate names first. Exits with 1 if an edit has no row, a row has no edit, or a place is another; --write puts the
log's places into the table. The gate keeps what passed: of edits that it tried in an earlier run it prints the same lines again."""
import os
import re
import sys

PROVING = os.path.join(os.path.dirname(os.path.abspath(__file__)), '..', '..', 'docs', 'PROVING.md')
ROW = re.compile(r'(\| (\w+/\w+) \| [^|]* \| )(.*)( \|\n?)')
SAID = re.compile(r'rt: must-fail (\w+)/(\w+)\.edit: refused, as it must be(.*)')
PLACE = re.compile(r'(?:note: )?(?:\./)?([\w/.+-]+):\d+:\d+: (.*)')
GOAL = re.compile(r'`([^`]+)`')


def place(crate, told):
    """The file, and the goal in it where the line names one."""
    found = PLACE.search(told)
    if not found:
        return 'not told'
    goal = GOAL.search(found.group(2))
    return '%s/%s' % (crate, found.group(1)) + (', `%s`' % goal.group(1) if goal else '')


def main(log, writes):
    with open(PROVING, encoding='utf-8') as f:
        lines = f.readlines()
    rows = {found.group(2): found for found in map(ROW.fullmatch, lines) if found}
    with open(log, encoding='utf-8') as f:
        said = {'%s/%s' % found.group(1, 2): place(*found.group(1, 3)) for found in map(SAID.match, f) if found}
    if writes:
        with open(PROVING, 'w', encoding='utf-8') as f:
            for line in lines:
                found = ROW.fullmatch(line)
                f.write(found.group(1) + said[found.group(2)] + found.group(4) if found and found.group(2) in said else line)
    wrong = ['%s: in the table %s, in the log %s' % (name, rows[name].group(3) if name in rows else None, said.get(name))
             for name in sorted(rows.keys() | said.keys()) if name not in rows or name not in said or not writes and rows[name].group(3) != said[name]]
    print('\n'.join(wrong + ['%d edits in the log, %d rows, %d differ' % (len(said), len(rows), len(wrong))]))
    return 1 if wrong or not said else 0


if __name__ == '__main__':
    words = [word for word in sys.argv[1:] if word != '--write']
    sys.exit(__doc__) if len(words) != 1 else sys.exit(main(words[0], len(words) < len(sys.argv) - 1))
