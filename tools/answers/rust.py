"""The Rust's answers: runs the oracle, the program that ../shared/oracle/build.py makes."""
import os
import struct
import subprocess
import tempfile

from model.records import encode, settings_record

from .stored import framed


def answers(oracle, cases, what='lower'):
    """For each (settings, tree) what `answers_of` says of their records."""
    return answers_of(oracle, [(settings_record(settings), encode(tree)) for settings, tree in cases], what)


def answers_of(oracle, cases, what='lower'):
    """For each pair of records a letter (T text, E error, P panic, D undecodable) and bytes. One answer a case, or this fails. `what`: lower, by
    `to_sql_impl`; or reduce, by `E::reduce` and then that."""
    with tempfile.TemporaryDirectory() as room:
        asked, told = os.path.join(room, 'cases'), os.path.join(room, 'answers')
        with open(asked, 'wb') as f:
            for case in cases:
                f.write(framed(*case))
        subprocess.run([oracle, what, asked, told], check=True)
        with open(told, 'rb') as f:
            data = f.read()
    found, at = [], 0
    while at < len(data):
        size = struct.unpack_from('<I', data, at + 1)[0]
        found.append((chr(data[at]), data[at + 5:at + 5 + size]))
        at += 5 + size
    if len(found) != len(cases):
        raise SystemExit('the oracle was asked %d trees and answered %d' % (len(cases), len(found)))
    return found
