"""What is built under target/, and whether it is of the crates as they stand: told in milliseconds, by stamps under target/stamp, without `rt`."""
import collections
import hashlib
import os
import platform
import shutil

PARTS = ('src', 'specs', 'proofs')    # of a crate: what is built, and what proves it

# crate: its folder under crates/; word: of `rt`, which in that folder proves and builds it; left: what `rt` leaves there; path: where it is copied to;
# tool: what does all this
Made = collections.namedtuple('Made', 'crate word left path tool')


def program(name):
    return Made(name, 'run', os.path.join('out', name), os.path.join('target', 'bin', name), 'tools/build/program ' + name)


def archive(name):
    """The library for C with the calls of crate NAME: NAME_c has the exports."""
    return Made(name + '_c', 'lib', os.path.join('out', 'lib%s_c.a' % name), os.path.join('target', 'staticlib', 'lib%s.a' % name), 'tools/build/archive ' + name)


def command():
    """The words that start `rt`; RT names another command in its place."""
    return os.environ.get('RT', 'rt').split() or ['rt']


def uses(root):
    """What stands after each crate's name in crates.txt, as it is written."""
    with open(os.path.join(root, 'crates.txt'), encoding='utf-8') as f:
        lines = [line.rstrip('\n').split('#')[0].partition(':') for line in f]
    return {name.split()[0]: rest for name, colon, rest in lines if colon}


def needed(root, name):
    """The crates of the repository that the named one rests on, itself among them."""
    known, found, left = uses(root), set(), [name]
    while left:
        name = left.pop()
        if name in known and name not in found:
            found.add(name)
            left += known[name].split()
    return found


def files(folder):
    """The paths of all files below the folder, none through a link."""
    for entry in os.scandir(folder):
        if entry.is_dir(follow_symlinks=False):
            yield from files(entry.path)
        elif entry.is_file(follow_symlinks=False):
            yield entry.path


def sums(crate):
    """A line for each of the crate's files: its sum and its path."""
    folders = [os.path.join(crate, part) for part in PARTS]
    found = [path for folder in folders if os.path.isdir(folder) and not os.path.islink(folder) for path in files(folder)]
    return ['%s  %s\n' % (sum_of(path), os.path.relpath(path, crate)) for path in sorted(found)]


def sum_of(path):
    with open(path, 'rb') as f:
        return hashlib.sha256(f.read()).hexdigest()


def kit():
    """The kit's one-line identity, by RATTLE_HOME or beside the program that is started, also by another as `nice rt`; empty where there is none."""
    programs = [shutil.which(word) for word in (*command(), 'rt')]
    homes = [os.path.dirname(os.path.dirname(os.path.realpath(program))) for program in programs if program]
    for home in [os.environ['RATTLE_HOME']] if os.environ.get('RATTLE_HOME') else homes:
        try:
            with open(os.path.join(home, 'KIT-ID'), encoding='utf-8') as f:
                return f.read()
        except OSError:
            pass
    return ''


def stamp(root, made):
    """The sum of all that it is built of: the kit, the kind of machine, the lines of crates.txt, and the files of the crates that it rests on."""
    known = uses(root)
    parts = [kit(), 'machine %s\n' % platform.machine()]
    for name in sorted(needed(root, made.crate)):
        parts += ['%s: %s\n' % (name, known[name]), *sums(os.path.join(root, 'crates', name))]
    return hashlib.sha256(''.join(parts).encode('utf-8', 'surrogateescape')).hexdigest()


def stamp_path(root, made):
    return os.path.join(root, 'target', 'stamp', os.path.basename(made.path))


def keep(root, made, stamp):
    """Notes what the thing is built of, with its own sum."""
    os.makedirs(os.path.join(root, 'target', 'stamp'), exist_ok=True)
    with open(stamp_path(root, made), 'w', encoding='ascii') as f:
        f.write('%s %s\n' % (stamp, sum_of(os.path.join(root, made.path))))


def built(root, made):
    """Whether it is there, and of the crates as they stand."""
    try:
        with open(stamp_path(root, made), encoding='ascii') as f:
            told = f.read().split()
        return told == [stamp(root, made), sum_of(os.path.join(root, made.path))]
    except (OSError, ValueError):
        return False
