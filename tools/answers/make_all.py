#!/usr/bin/env python3
"""Makes all stored answers that crates/ replays.

usage: python3 tools/answers/make_all.py ORACLE            ORACLE: the program that ../shared/oracle/build.py makes
       python3 tools/answers/make_all.py ORACLE --check    writes nothing, and exits with 1 if a stored file is another than the makers make

Exits with 1 where one of the makers does: their usages say what is compared and which counts there must be."""
import os
import sys

sys.path.insert(0, os.path.join(os.path.dirname(os.path.abspath(__file__)), '..'))
from answers import (make_controller_answers, make_geopackage_answers, make_keyword_answers, make_leaf_answers, make_lowering_answers,
                     make_operator_answers, make_program_answers, make_reading_answers, make_reduction_answers, make_text_answers, make_tree_answers,
                     stored)


def main(oracle, checking):
    stored.checking = checking
    for maker in (make_operator_answers, make_leaf_answers, make_lowering_answers, make_text_answers, make_geopackage_answers, make_controller_answers,
                  make_reduction_answers):
        maker.main(oracle)
    for maker in (make_tree_answers, make_keyword_answers, make_reading_answers, make_program_answers):
        maker.main()
    print('all stored answers are as they are made' if checking else 'all stored answers were written')


if __name__ == '__main__':
    words = sys.argv[1:]
    sys.exit(__doc__) if len(words) not in (1, 2) or words[1:] not in ([], ['--check']) else main(os.path.abspath(words[0]), len(words) == 2)
