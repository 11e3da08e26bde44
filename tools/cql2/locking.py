"""One `rt` at a time in a repository's target/: a lock on the repository's folder, and an end to the provers with the command that started them."""
import contextlib
import fcntl
import os
import signal
import subprocess
import sys
import threading

ENDING = (signal.SIGINT, signal.SIGTERM, signal.SIGHUP)
PATIENCE = 3    # seconds that provers have to end by themselves


class Stopped(KeyboardInterrupt):
    """A signal that ends the command came; `number` is the signal's."""

    def __init__(self, number):
        super().__init__()
        self.number = number


@contextlib.contextmanager
def held(folder):
    """Holds the lock on the folder. What is started meanwhile keeps it, so that it outlasts a command that is killed."""
    lock = os.open(folder, os.O_RDONLY)
    os.set_inheritable(lock, True)
    try:
        try:
            fcntl.flock(lock, fcntl.LOCK_EX | fcntl.LOCK_NB)
        except BlockingIOError:
            print('another command is proving in %s: waiting for it' % folder, file=sys.stderr, flush=True)
            fcntl.flock(lock, fcntl.LOCK_EX)
        yield
    finally:
        os.close(lock)


@contextlib.contextmanager
def signals_told():
    """Each signal that ends a command is raised as Stopped, so that what it started is ended too."""
    def stop(number, _):
        raise Stopped(number)

    if threading.current_thread() is not threading.main_thread():
        yield
        return
    before = {number: signal.signal(number, stop) for number in ENDING if signal.getsignal(number) is not signal.SIG_IGN}
    try:
        yield
    finally:
        for number, handler in before.items():
            signal.signal(number, handler)


def run(words, folder, follow):
    """Runs a command in a group of its own; gives its status and what `follow` makes of its output. Whatever ends this ends the group."""
    with signals_told():
        # close_fds: the lock must go on to the provers
        rt = subprocess.Popen(words, cwd=folder, stdin=subprocess.DEVNULL, stdout=subprocess.PIPE, stderr=subprocess.STDOUT, text=True,
                              errors='replace', start_new_session=True, close_fds=False)
        try:
            with rt.stdout:
                last = follow(rt.stdout)
            return rt.wait(), last
        except BaseException:
            end(rt)
            raise


def end(rt):
    """Ends a command and all that it started: `rt` is a shell, and what a shell has in the background heeds no interrupt."""
    for number in (signal.SIGTERM, signal.SIGKILL):
        try:
            os.killpg(rt.pid, number)
        except ProcessLookupError:
            return
        if number == signal.SIGTERM:
            try:
                rt.wait(PATIENCE)
            except (subprocess.TimeoutExpired, KeyboardInterrupt):
                pass    # then by force
    rt.wait()
