"""The proved programs `lower`, `lower_reduced` and `read`, and the libraries for C: built by `rt` where that is needed, one build at a time; the programs
run on many cases at once."""
import os
import re
import shutil
import struct
import subprocess
import sys
import threading
import time

from . import locking, stamps
from .errors import BadInput

ROOT = os.path.abspath(os.path.join(os.path.dirname(os.path.abspath(__file__)), '..', '..'))


def path_of(name):
    return os.path.join(ROOT, stamps.program(name).path)


def build(names):
    """Has `rt` prove and build the programs where they are not built from the crates as they stand: minutes after a fresh clone."""
    make([stamps.program(name) for name in names], 'the proved program is')


def build_archives(names):
    """The same of the libraries for C with the calls of these crates."""
    make([stamps.archive(name) for name in names], 'the library is')


def make(wanted, told):
    if shutil.which(stamps.command()[0]) is None:
        if all(os.access(os.path.join(ROOT, made.path), os.X_OK if made.word == 'run' else os.R_OK) for made in wanted):
            return
        raise BadInput('%s not built, and `rt` of the Rattle kit is not on the PATH' % told)
    left = [made for made in wanted if not stamps.built(ROOT, made)]
    if not left:
        return
    for made in left:
        check_writable(made, told)
    with locking.held(ROOT):
        for made in left:
            if not stamps.built(ROOT, made):    # else whoever held the lock has built it
                make_one(made)


def make_one(made):
    """Has `rt` prove the crate and all below it, and build it; what it leaves is copied, and the stamp is kept, unless a file changed meanwhile."""
    stamp, folder = stamps.stamp(ROOT, made), os.path.join(ROOT, 'crates', made.crate)
    status, last = locking.run([*stamps.command(), made.word], folder, follow)
    if status != 0:
        raise BadInput('`rt %s` in crates/%s failed: %s' % (made.word, made.crate, last))
    path = os.path.join(ROOT, made.path)
    os.makedirs(os.path.dirname(path), exist_ok=True)
    shutil.copy(os.path.join(folder, made.left), path + '.new')
    os.replace(path + '.new', path)    # one that runs goes on
    if stamp == stamps.stamp(ROOT, made):
        stamps.keep(ROOT, made, stamp)


def check_writable(made, told):
    """Before a build: one line, where `rt` would fail at every step."""
    target = os.path.join(ROOT, 'target')
    folders = [target, os.path.join(target, 'stamp'), os.path.dirname(os.path.join(ROOT, made.path))]
    folders += [os.path.join(ROOT, 'crates', name, 'out') for name in stamps.needed(ROOT, made.crate)]
    for path in folders:
        path = path if os.path.isdir(path) else os.path.dirname(path)
        if os.path.isdir(path) and not os.access(path, os.W_OK | os.X_OK):
            raise BadInput('%s not built from the crates as they stand, and you may not write %s; have its owner run `%s` there'
                           % (told, path, made.tool))


def follow(output):
    """Shows a line for each crate that is proved anew, and on a terminal how long it has been going; gives the last line."""
    started, crate, last = time.monotonic(), None, 'it said nothing'
    before, ended = started, threading.Event()
    ticking = threading.Thread(target=tick, args=(started, ended), daemon=True)
    ticking.start()
    try:
        for line in output:
            last = line.strip() or last
            told = re.match(r'crate (\w+): modules loaded=\d+ checked=(\d+)', line)
            if told:
                crate = told.group(1) if int(told.group(2)) else None
            if crate and line.startswith('logic=proved'):
                clear = '\r\033[K' if sys.stderr.isatty() else ''
                print('%sproved %-17s %4d s' % (clear, crate, time.monotonic() - before), file=sys.stderr, flush=True)
                before = time.monotonic()
    finally:
        ended.set()
        ticking.join()
    return last


def tick(started, ended):
    """On a terminal, after three seconds, says what is going on and for how long: the first build takes minutes."""
    if not sys.stderr.isatty() or ended.wait(3):
        return
    print('proving (some minutes, the first time only)', file=sys.stderr, flush=True)
    while not ended.wait(1):
        print('\rproving, %d s ' % (time.monotonic() - started), end='', file=sys.stderr, flush=True)
    print('\r\033[K', end='', file=sys.stderr, flush=True)


def run(name, cases, words=()):
    """A line of answer for each case, which is a pair of byte strings. words: the program's arguments."""
    data = b''.join(struct.pack('<I', len(part)) + part for case in cases for part in case)
    try:
        done = subprocess.run([path_of(name), *words], input=data, stdout=subprocess.PIPE)
    except OSError as e:
        raise BadInput('cannot run %s: %s' % (path_of(name), e.strerror))
    lines = done.stdout.decode('utf-8').split('\n')
    if done.returncode != 0 or len(lines) != len(cases) + 1 or lines[-1]:
        raise BadInput('%s answered %d lines to %d cases (status %d)' % (path_of(name), len(lines) - 1, len(cases), done.returncode))
    return lines[:-1]
