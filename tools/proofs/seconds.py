#!/usr/bin/env python3
"""The seconds that a crate's check spends on each function and each module, the longest first. The prover saves every module when it has checked it,
so the times of the files tell, of a check by one job with nothing to begin with. X.Lts is made of the code of X, X.Answers is its proof file.

usage: rm -rf crates/CRATE/out/incremental; (cd crates/CRATE && rt check --jobs 1); python3 tools/proofs/seconds.py CRATE [LINES]"""
import collections
import itertools
import os
import re
import sys

ROOT = os.path.join(os.path.dirname(os.path.abspath(__file__)), '..', '..')


def modules(crate):
    """The modules in the order in which they were saved, each with the seconds since the one before."""
    saved = []
    for folder, _, files in os.walk(os.path.join(ROOT, 'crates', crate, 'out', 'incremental')):
        if 'records' in folder.split(os.sep):
            continue
        saved += [(os.stat(os.path.join(folder, name)).st_mtime, name[:-len('.oantt')]) for name in files if name.endswith('.oantt')]
    saved.sort()
    return [(name, time - saved[max(i - 1, 0)][0]) for i, (time, name) in enumerate(saved)]


def function_of(module):
    """What stands between the crate's library and the part of a function's proof, or else the first part of a module of another sort."""
    parts = re.split(r'[.-]proofs\.', module, maxsplit=1)[-1].split('.')
    return '.'.join(list(itertools.takewhile(lambda part: not part[:1].isupper(), parts)) or parts[:1])


def main(crate, lines=20):
    found = modules(crate)
    if not found:
        sys.exit('seconds: nothing in crates/%s/out/incremental' % crate)
    functions = collections.Counter()
    for name, seconds in found:
        functions[function_of(name)] += seconds
    print('%.1f s in %d modules' % (sum(seconds for _, seconds in found), len(found)))
    for title, rows in (('function', functions.most_common(lines)), ('module', sorted(found, key=lambda row: -row[1])[:lines])):
        print('\nby %s' % title)
        for name, seconds in rows:
            print('%6.2f  %s' % (seconds, name))


if __name__ == '__main__':
    sys.exit(__doc__) if len(sys.argv) not in (2, 3) else main(sys.argv[1], *map(int, sys.argv[2:]))
