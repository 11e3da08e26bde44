"""Tests of the build: many commands at once, interrupted ones, folders that may not be written, links; a stand-in takes the place of `rt`."""
import os
import shutil
import signal
import subprocess
import sys
import tempfile
import time
import unittest

from . import proved, stamps

NOBODY = 65534
PYTHON = '/usr/bin/python3' if os.path.exists('/usr/bin/python3') else sys.executable    # one that nobody may start too

# Stands where `rt` stands, in a crate's folder: notes its start, sees whether another runs beside it, takes a while, and leaves a program or a library.
STAND_IN = '''
import os, shutil, subprocess, sys, time
crate, top = os.getcwd(), os.path.dirname(os.path.dirname(os.getcwd()))
made = {'run': 'lower', 'lib': 'libcapi_c.a'}[sys.argv[1]]
os.chdir(top)

def note(word):
    with open('notes', 'a') as f:
        f.write(word + '\\n')

note('start')
try:
    os.mkdir('busy')
except FileExistsError:
    note('two at once')
if os.environ.get('PROVER'):
    # as rt's provers: in the background, heeding no interrupt
    prover = subprocess.Popen(['sh', '-c', 'trap "" INT; sleep 60 & wait'])
    note('prover %d' % prover.pid)
    prover.wait()
time.sleep(1)
os.makedirs(os.path.join(crate, 'out'), exist_ok=True)
shutil.copy(os.environ['PROGRAM'], os.path.join(crate, 'out', made))
print('crate %s: modules loaded=2 checked=3' % os.path.basename(crate))
print('logic=proved functions=1')
os.rmdir('busy')
'''


class Build(unittest.TestCase):
    def setUp(self):
        proved.build(['lower', 'read'])
        folder = tempfile.TemporaryDirectory()
        self.addCleanup(folder.cleanup)
        self.folder = folder.name
        os.chmod(self.folder, 0o755)
        for name in ('filter', 'demo'):
            shutil.copy(os.path.join(proved.ROOT, name), self.folder)
        shutil.copytree(os.path.join(proved.ROOT, 'tools'), self.path('tools'))
        self.write('crates.txt', 'lower:\ncapi_c staticlib:\n')
        for path in (os.path.join('crates', 'lower', 'src', 'main.rt'), os.path.join('crates', 'capi_c', 'src', 'lib.rt')):
            os.makedirs(os.path.dirname(self.path(path)))
            self.write(path, '// code\n')
        self.write('rt.py', STAND_IN)
        self.env = {**os.environ, 'RT': '%s %s' % (PYTHON, self.path('rt.py')), 'PROGRAM': proved.path_of('lower')}

    def path(self, *parts):
        return os.path.join(self.folder, *parts)

    def write(self, name, text):
        with open(self.path(name), 'w', encoding='utf-8') as f:
            f.write(text)

    def notes(self):
        try:
            with open(self.path('notes'), encoding='utf-8') as f:
                return f.read().split('\n')[:-1]
        except FileNotFoundError:
            return []

    def start(self, *words, **more):
        words = words or (self.path('filter'), 'true')
        return subprocess.Popen([PYTHON, *words], stdout=subprocess.PIPE, stderr=subprocess.PIPE, text=True, env={**self.env, **more.pop('env', {})}, **more)

    def eight(self):
        started = [self.start() for _ in range(8)]
        return [(*one.communicate(timeout=120), one.returncode) for one in started]

    def test_eight_at_once(self):
        done = self.eight()
        self.assertEqual([(out, status) for out, _, status in done], [('TRUE\n', 0)] * 8, done)
        self.assertEqual(self.notes(), ['start'])
        said = [err for _, err, _ in done]
        self.assertEqual(sum('proved lower ' in err for err in said), 1, said)
        self.assertTrue(any('another command is proving in %s: waiting for it' % self.folder in err for err in said), said)
        # once more, on what is built: nothing is started, and nothing is said
        self.assertEqual(self.eight(), [('TRUE\n', '', 0)] * 8)
        self.assertEqual(self.notes(), ['start'])
        # and a change is seen
        self.write(os.path.join('crates', 'lower', 'src', 'main.rt'), '// another program\n')
        self.assertTrue(all(status == 0 for _, _, status in self.eight()))
        self.assertEqual(self.notes(), ['start', 'start'])

    def test_eight_at_once_on_the_proved_tree(self):
        self.env['RATTLE_HOME'] = os.environ.get('RATTLE_HOME') or os.path.dirname(os.path.dirname(os.path.realpath(shutil.which('rt'))))
        self.env['RT'] = 'false'
        started = [self.start(os.path.join(proved.ROOT, 'filter'), 'true') for _ in range(8)]
        self.assertEqual([(*one.communicate(), one.returncode) for one in started], [('TRUE\n', '', 0)] * 8)

    def test_a_built_tree_is_seen_in_milliseconds(self):
        def once():
            started = time.perf_counter()
            self.assertTrue(all(stamps.built(proved.ROOT, stamps.program(name)) for name in ('lower', 'read')))
            return time.perf_counter() - started
        self.assertLess(min(once() for _ in range(5)), 0.1)

    def test_interrupted(self):
        for number in (signal.SIGINT, signal.SIGTERM, signal.SIGHUP):
            shutil.rmtree(self.path('busy'), ignore_errors=True)
            self.write('notes', '')
            # a run of tests in the background heeds no interrupt, and nor would what it starts
            one = self.start(env={'PROVER': '1'}, preexec_fn=lambda: signal.signal(signal.SIGINT, signal.SIG_DFL))
            until(lambda: len(self.notes()) == 2)
            prover = int(self.notes()[1].split()[1])
            one.send_signal(number)
            self.assertEqual(one.communicate(timeout=20), ('', 'filter: stopped\n'))
            self.assertEqual(one.returncode, 128 + number)
            until(lambda: not alive(prover))
        os.rmdir(self.path('busy'))
        one = self.start()
        self.assertEqual((one.communicate(timeout=20)[0], one.returncode), ('TRUE\n', 0))

    def test_another_rt_waits_too(self):
        """The script by which the tests of C, the Rust crate, bench and fuzz have the library built."""
        started = [self.start(self.path('tools', 'build', 'archive'), 'capi') for _ in range(2)] + [self.start()]
        for one in started:
            one.communicate(timeout=60)
        self.assertEqual([one.returncode for one in started], [0, 0, 0])
        self.assertEqual(self.notes(), ['start'] * 2)    # of the library, once, and of the program
        self.assertTrue(os.path.isfile(self.path('target', 'staticlib', 'libcapi.a')))

    def test_a_folder_that_may_not_be_written(self):
        os.mkdir(self.path('target'))
        os.chmod(self.path('target'), 0o555)
        one = self.start(**({'user': NOBODY, 'group': NOBODY, 'extra_groups': []} if os.geteuid() == 0 else {}))
        self.assertEqual(one.communicate(), ('', 'filter: the proved program is not built from the crates as they stand, and you may not write %s; '
                                                 'have its owner run `tools/build/program lower` there\n' % self.path('target')))
        self.assertEqual((one.returncode, self.notes()), (2, []))

    def test_links(self):
        for name, words, out in (('filter', ['true'], 'TRUE\n'), ('demo', ['--help'], 'Makes a log of stays')):
            os.symlink(os.path.join(proved.ROOT, name), self.path('link'))
            done = subprocess.run([self.path('link'), *words], capture_output=True, text=True, cwd='/')
            self.assertEqual((done.returncode, done.stderr), (0, ''))
            self.assertTrue(done.stdout.startswith(out), done.stdout)
            os.remove(self.path('link'))

    def test_a_fault_of_the_command_is_no_refusal(self):
        os.remove(self.path('tools', 'cql2', 'encode.py'))
        for name in ('filter', 'demo'):
            one = self.start(self.path(name), 'true')
            self.assertRegex(one.communicate()[1], '^%s: this command is not whole, or Python is older than 3.9: .*encode.*\n$' % name)
            self.assertEqual(one.returncode, 2)
        done = subprocess.run([PYTHON, '-c', "from cql2.errors import guarded; exit(guarded('filter', lambda: 1 // 0))"], capture_output=True, text=True,
                              cwd=os.path.join(proved.ROOT, 'tools'))
        self.assertEqual((done.returncode, done.stderr), (2, 'filter: a fault in this command (ZeroDivisionError: integer division or modulo by '
                                                             'zero): please report the call\n'))

    def test_eight_demos_at_once(self):
        started = [subprocess.Popen([os.path.join(proved.ROOT, 'demo')], stdout=subprocess.PIPE, stderr=subprocess.PIPE) for _ in range(8)]
        for one in started:
            self.assertEqual((one.communicate()[1], one.returncode), (b'', 0))


def until(condition):
    end = time.monotonic() + 20
    while not condition():
        if time.monotonic() > end:
            raise AssertionError('this did not come about in 20 s')
        time.sleep(0.05)


def alive(pid):
    try:
        with open('/proc/%d/stat' % pid, encoding='ascii', errors='replace') as f:
            return f.read().rsplit(')', 1)[1].split()[0] != 'Z'
    except FileNotFoundError:
        return False


if __name__ == '__main__':
    unittest.main()
