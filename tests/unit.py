#!/usr/bin/env python3
"""Runs the unit tests under tools/, and adds the name of each that did not run, with the reason, to a file.

usage: python3 tests/unit.py FILE     status 1 if a test failed or none was found"""
import os
import sys
import unittest

TOOLS = os.path.join(os.path.dirname(os.path.dirname(os.path.abspath(__file__))), 'tools')


def main(path):
    sys.dont_write_bytecode = True
    done = unittest.TextTestRunner(verbosity=1).run(unittest.defaultTestLoader.discover(TOOLS))
    with open(path, 'a', encoding='utf-8') as f:
        f.writelines('%s: %s\n' % (test.id(), reason) for test, reason in done.skipped)
    return 0 if done.wasSuccessful() and done.testsRun else 1


if __name__ == '__main__':
    if len(sys.argv) != 2:
        sys.exit(__doc__)
    sys.exit(main(sys.argv[1]))
