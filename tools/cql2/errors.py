"""What can keep a command from its answer. Each is told to the user as one line, with an exit status, and never by a traceback."""
import os
import signal
import sqlite3
import sys


class BadInput(Exception):
    """The filter, a file or an option is not what it should be: exit status 2."""

    def __init__(self, message, place=None):
        super().__init__(message if place is None else '%s: %s' % (place, message))


class Refused(Exception):
    """A filter that document 01 refuses, by the number and in words: exit status 1."""

    def __init__(self, number, words, place=None):
        where = '' if place is None else ' at ' + place
        super().__init__('refused (%d)%s: %s' % (number, where, words))
        self.number, self.place = number, place


class Parted(Exception):
    """A text that is known to part from its filter, where --strict is given: exit status 1."""


class Disagreement(Exception):
    """The proved reader and SQLite say different things of a row: exit status 1."""


def guarded(name, work, enough=0):
    """Does the work; gives the exit status, `enough` where the reader of its output leaves before the end."""
    # a stream that the caller closed is None; what is written to it then goes nowhere
    sys.stdin, sys.stdout, sys.stderr = (stream or open(os.devnull, mode) for stream, mode in
                                         ((sys.stdin, 'r'), (sys.stdout, 'w'), (sys.stderr, 'w')))
    # an SQL text is UTF-8, whatever characters the terminal has
    sys.stdout.reconfigure(encoding='utf-8', errors='backslashreplace')
    sys.stderr.reconfigure(errors='backslashreplace')
    try:
        work()
        sys.stdout.flush()
        return 0
    except (Refused, Parted, Disagreement) as e:
        return told(name, e, 1)
    except (BadInput, sqlite3.Error) as e:
        return told(name, e, 2)
    except RecursionError:
        return told(name, Refused(4, "the filter lies deeper than any caller's levels"), 1)
    except UnicodeEncodeError:
        return told(name, 'an argument is not UTF-8 text', 2)
    except MemoryError:
        return told(name, 'there is not enough memory', 2)
    except KeyboardInterrupt as e:
        return told(name, 'stopped', 128 + getattr(e, 'number', signal.SIGINT))
    except OSError as e:
        # what is still to be written has nowhere to go, and must not be tried again at exit
        os.dup2(os.open(os.devnull, os.O_WRONLY), sys.stdout.fileno())
        return enough if isinstance(e, BrokenPipeError) else told(name, of_system(e), 2)
    except Exception as e:
        # a fault of the command itself, which must not look like a refusal
        return told(name, 'a fault in this command (%s: %s): please report the call' % (type(e).__name__, e), 2)


def of_system(e):
    """What the system says, with the file that it is about."""
    return '%s%s' % ('%s: ' % e.filename if isinstance(e.filename, str) else '', e.strerror or e)


def some(names, most=12):
    """A list in words, cut where it is long."""
    left = len(names) - most
    return ', '.join(names[:most]) + (', … (%d more)' % left if left > 0 else '')


def told(name, message, status):
    """Says it in one line on standard error; gives the status."""
    line = ' '.join(str(message).split())
    # names out of a filter or a file may hold what a terminal would obey
    line = ''.join(c if c.isprintable() else c.encode('unicode_escape', 'backslashreplace').decode() for c in line)
    try:
        print('%s: %s' % (name, line), file=sys.stderr, flush=True)
    except OSError:
        # nobody can be told, but the status still says it; what is left must not be tried again at exit
        os.dup2(os.open(os.devnull, os.O_WRONLY), sys.stderr.fileno())
    return status
