"""The Rust's own answers, by the oracle program that ORACLE names: for tests alone."""
import os
import struct
import subprocess
import tempfile

MISSING = 'ORACLE names no program: it is built from ../shared/oracle'


def program():
    return os.environ.get('ORACLE')


def answers(cases, what='lower'):
    """For each (settings, tree) as bytes: a letter, T for a text, E for an error and P for a panic, and the text. `what`: lower; or reduce, and then lower."""
    with tempfile.TemporaryDirectory() as folder:
        asked, told = os.path.join(folder, 'cases'), os.path.join(folder, 'answers')
        with open(asked, 'wb') as f:
            for part in (part for case in cases for part in case):
                f.write(struct.pack('<I', len(part)) + part)
        subprocess.run([program(), what, asked, told], check=True)
        with open(told, 'rb') as f:
            data = f.read()
    found, at = [], 0
    while at < len(data):
        size = int.from_bytes(data[at + 1:at + 5], 'little')
        found.append((data[at:at + 1].decode(), data[at + 5:at + 5 + size].decode()))
        at += 5 + size
    if len(found) != len(cases):
        raise AssertionError('the oracle answered %d of %d cases' % (len(found), len(cases)))
    return found
