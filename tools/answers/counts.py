"""The end of a script that compares or makes answers."""
import os
import sys

SHOWN = 10


def shown(what, differ):
    """Prints some of what differs; how many that are."""
    for one in differ[:SHOWN]:
        print('differs: %s:' % what, *one)
    return len(differ)


def short(differ, counts):
    """What is wrong: answers that differ, and what there are fewer of than there must be. counts: (what, how many, how many there must be)."""
    wrong = ['%d answers differ' % differ] if differ else []
    return wrong + ['%d %s, and there must be %d' % (found, what, due) for what, found, due in counts if found < due]


def stop_if_wrong(differ, *counts):
    """Exit status 1 on a disagreement and on a count that is short."""
    wrong = short(differ, counts)
    if wrong:
        sys.exit('%s: %s' % (os.path.basename(sys.argv[0]), '; '.join(wrong)))
