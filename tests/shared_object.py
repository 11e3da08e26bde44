"""The library as a shared object, for the tests that call it from Python."""
import os, subprocess, sys

ROOT = os.path.dirname(os.path.dirname(os.path.abspath(__file__)))
ALL, CONTROLLER = 'capi', 'controller_capi'    # the crates of all functions, and of the controller's alone


def run(caller, *words):
    try:
        done = subprocess.run(words, cwd=ROOT, stdout=subprocess.PIPE, stderr=subprocess.STDOUT, text=True)
    except OSError as e:
        sys.exit('%s: cannot run %s: %s' % (caller, words[0], e.strerror))
    if done.returncode:
        sys.exit('%s: %s failed:\n%s' % (caller, words[0], done.stdout[-2000:]))


def archive(caller, crate=ALL):
    """The static library's path, after it was proved and built as the crates stand. The caller's name stands before what went wrong."""
    run(caller, os.path.join(ROOT, 'tools', 'build', 'archive'), crate)
    return os.path.join(ROOT, 'target', 'staticlib', 'lib%s.a' % crate)


def build(caller, crate=ALL):
    """The same as a shared object."""
    made = os.path.join(ROOT, 'target', 'tests', 'lib%s.so' % crate)
    os.makedirs(os.path.dirname(made), exist_ok=True)
    run(caller, 'gcc', '-shared', '-o', made, '-Wl,--whole-archive', archive(caller, crate), '-Wl,--no-whole-archive')
    return made
