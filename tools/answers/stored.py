"""How the stored answers are written: where they lie, and the form of a case, which is a run of parts, the last of them the answer."""
import os
import struct
import sys

from model.c import TRUTH
from model.refusals import ABSENT, BUFFER, CONSTANT_OPERANDS, GRAMMAR, PLACE, READING_SIZE, ROW, SETTINGS, TREE_SIZE

CRATES = os.path.join(os.path.dirname(os.path.abspath(__file__)), '..', '..', 'crates')
REPLAYED = ('operators', 'trees', 'keyword_trees', 'text_trees', 'leaves', 'lowerings', 'text_lowerings', 'geopackage_lowerings', 'controller_lowerings',
            'controller_geopackage_lowerings', 'readings', 'keyword_readings', 'text_readings',
            'geopackage_readings')    # in the order of the program's lines
checking = False    # set by make_all.py


def write(data, *path):
    """The bytes or the text to a file below crates/; while checking they must be there already."""
    path, data = os.path.join(CRATES, *path), data if isinstance(data, bytes) else data.encode()
    if checking:
        with open(path, 'rb') as f:
            if f.read() != data:
                sys.exit('%s is another than it is made' % os.path.relpath(path))
        return
    os.makedirs(os.path.dirname(path), exist_ok=True)
    with open(path, 'wb') as f:
        f.write(data)


def program(word):
    """The program whose data the list is."""
    return 'replay' if word in REPLAYED else 'replay_' + word


def write_cases(word, cases, line):
    """Each case a tuple of parts, to the program that replays them: its file of that name, and the line that it must write of it."""
    write(b''.join(framed(*case) for case in cases), program(word), 'data', word)
    if word not in REPLAYED:
        return write('%s: %s\n' % (word, line), program(word), 'stdout')
    with open(os.path.join(CRATES, 'replay', 'stdout')) as f:
        lines = {line.partition(':')[0]: line for line in f.read().splitlines()}
    lines[word] = '%s: %s' % (word, line)
    write(''.join('%s\n' % lines.get(one, '') for one in REPLAYED), 'replay', 'stdout')


def framed(*parts):
    """Each part after its length in four bytes, little-endian: the form of stored cases, of standard input of the programs that crates/input reads
    for, and of what the oracle is asked."""
    return b''.join(struct.pack('<I', len(part)) + part for part in parts)


def cases(word, count):
    """The cases of the file of that name, each of so many parts."""
    with open(os.path.join(CRATES, program(word), 'data', word), 'rb') as f:
        data, parts, at = f.read(), [], 0
    while at < len(data):
        size = struct.unpack_from('<I', data, at)[0]
        parts.append(data[at + 4:at + 4 + size])
        at += 4 + size
    assert len(parts) % count == 0, word + ' ends inside a case'
    return list(zip(*[iter(parts)] * count))


def lowering_case(settings, tree, room, answer):
    """The buffer's length in four bytes; the answer a byte 0 and the text, or the refusal's number."""
    return settings, tree, struct.pack('<I', room), bytes([answer]) if isinstance(answer, int) else b'\0' + answer


def reading_case(text, row, answer):
    """The answer a byte: 0 false, 1 true, 2 unknown, or the refusal's number."""
    return text, row, bytes([TRUTH.get(answer, answer)])


def reduction_case(tree, answer):
    """The answer a byte 0 and the reduced tree, or the refusal's number; 9 is none of them, as no buffer's length is stored."""
    return tree, bytes([answer]) if isinstance(answer, int) else b'\0' + answer


def lowering_line(tally):
    """What the program writes of cases whose answers are 0 for a text or a refusal's number, counted here."""
    return 'cases %d, as stored: texts %d, refused %s' % (
        sum(tally.values()), tally[0], ', '.join('%d %d' % (n, tally[n]) for n in range(SETTINGS, BUFFER + 1)))


def reduction_line(tally):
    """What the program writes of cases whose answers are 0 for a tree or a refusal's number, counted here."""
    return 'cases %d, as stored: trees %d, refused %s' % (
        sum(tally.values()), tally[0], ', '.join('%d %d' % (n, tally[n]) for n in (*range(TREE_SIZE, PLACE + 1), CONSTANT_OPERANDS)))


def tree_line(tally):
    """What the program writes of cases whose answers are 0 for accepted or a refusal's number, counted here."""
    total = sum(tally.values())
    return '%d cases, %d as expected; accepted %d, refusals 1 to 7: %s' % (total, total, tally[0], ' '.join(str(tally[n]) for n in range(1, 8)))


def reading_line(tally):
    return 'cases %d, right: true %d, false %d, unknown %d, refused %s' % (
        sum(tally.values()), tally[1], tally[0], tally[2], ', '.join('%d %d' % (n, tally[n]) for n in (READING_SIZE, ROW, GRAMMAR, ABSENT)))
