"""Libraries with a planted fault each, and whether the fuzzing finds it."""
import os, re, subprocess

HERE = os.path.dirname(os.path.abspath(__file__))
SOURCES = [os.path.join(HERE, name) for name in ('faults.c', 'controller_faults.c', 'reduction_faults.c')]


def build(archive, folder, number):
    real, path = os.path.join(folder, 'libtrue.a'), os.path.join(folder, 'fault%d.so' % number)
    lowering = [caller + call for caller in ('', 'controller_') for call in ('to_sql', 'to_geopackage_sql', 'preview_sql', 'preview_geopackage_sql')]
    names = ['wenduulig_%s=true_%s' % (name, name) for name in (*lowering, 'reduce', 'read')]
    subprocess.run(['objcopy', *(word for name in names for word in ('--redefine-sym', name)), archive, real], check=True)
    subprocess.run(['gcc', '-D_GNU_SOURCE', '-DFAULT=%d' % number, '-O1', '-fPIC', '-shared', '-I', os.path.join(HERE, '..', 'include'), '-o', path,
                    *SOURCES, real], check=True)
    return path


def main(archive, folder, total, fuzz):
    """Exit status 1 if a fault is not found, or if one is found where none was planted."""
    planted = []
    for path in SOURCES:
        with open(path) as f:
            planted += [(int(n), told) for n, told in re.findall(r'/\* (\d+) (.*?) \*/', f.read())]
    missed = 0
    for number, told in [(0, 'none planted')] + planted:
        tally, _, wrong = fuzz(build(archive, folder, number), 1, total, False, 1 if number else None)
        said = 'found in: %s' % wrong[0][0] if wrong else 'not found in %d cases' % total
        missed += bool(wrong) != bool(number)
        print('%-62s %s' % (told, said), flush=True)
    print('%d planted faults, %d missed' % (len(planted), missed))
    return 1 if missed else 0
