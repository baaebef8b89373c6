"""Outputs appear when they are whole: no tool loses the file that was there, whatever happens."""
import os
import pty
import resource
import signal
import stat
import subprocess
import sys
import threading
import unittest

from tests import support
from psxgpu import capture as c
from psxgpu.command import ToolError
from psxgpu.output import write_whole, writing

DUMP = bytes(2048)
CAPTURE = c.Capture().gp0(c.fill(0xFF, 0, 0, 16, 16)).stat().bytes()
# The arguments of each tool that writes, and what it reads. IN and OUT are an input and the output.
WRITERS = {
    'first': (['2', 'IN', 'OUT'], CAPTURE),
    'join': (['IN', 'IN', '-o', 'OUT'], CAPTURE),
    'from-log': (['IN', 'OUT'], b'gp0 0\nstat\n'),
    'trim': (['--frames', '1', 'IN', '-o', 'OUT'], CAPTURE),
    'picture': (['IN', 'OUT'], DUMP),
    'picture -o': (['IN', '-o', 'OUT'], DUMP),
    'compare': (['IN', 'IN', 'OUT'], DUMP),
    'compare --side': (['IN', 'IN', '--side', 'OUT'], DUMP),
}
SAME = [name for name in WRITERS if name != 'join']


class Outputs(support.InFolder):
    def run_it(self, name, source, out, **settings):
        words = [{'IN': source, 'OUT': out}.get(word, word) for word in WRITERS[name][0]]
        return support.run_tool(name.split()[0], *words, cwd=self.folder, **settings)

    def expect_error(self, done, text):
        self.assertEqual((done.returncode, done.stderr.count('\n')), (2, 1), done)
        self.assertIn(text, done.stderr)

    def expect_alone(self, *names):
        """Nothing but these files is in the folder."""
        self.assertEqual(sorted(os.listdir(self.folder)), sorted(names))

    def each(self):
        """The names of the tools, each with its input as `in`."""
        for name, (_, data) in WRITERS.items():
            self.write('in', data)
            yield name

    def test_bad_input_leaves_the_old_file(self):
        for name in self.each():
            self.write('out', b'old')
            for bad in (b'', self.read('in')[:15]):
                self.write('bad', bad)
                if name == 'from-log':
                    self.write('bad', b'gp0 0\nnothing\n')
                self.expect_error(self.run_it(name, 'bad', 'out'), 'bad')
                self.assertEqual(self.read('out'), b'old')
            self.expect_error(self.run_it(name, 'none', 'out'), 'none: No such file')
            self.assertEqual(self.read('out'), b'old')
            self.expect_alone('in', 'bad', 'out')

    def test_a_write_that_fails_leaves_the_old_file(self):
        def small():
            resource.setrlimit(resource.RLIMIT_FSIZE, (8, 8))
        for name in self.each():
            self.write('out', b'old')
            done = self.run_it(name, 'in', 'out', preexec_fn=small)
            self.expect_error(done, 'File too large')
            if name != 'from-log':      # whose records wait in a file elsewhere
                self.assertIn(': out: ', done.stderr)
            self.assertEqual(self.read('out'), b'old')
            self.expect_alone('in', 'out')

    def test_mode_and_link_are_kept(self):
        for name in self.each():
            self.write('real', b'old')
            os.chmod(self.path('real'), 0o751)
            os.symlink('real', self.path('link'))
            self.assertEqual(self.run_it(name, 'in', 'link').returncode, 0)
            self.assertTrue(os.path.islink(self.path('link')))
            self.assertEqual(stat.S_IMODE(os.stat(self.path('real')).st_mode), 0o751)
            self.assertNotEqual(self.read('real'), b'old')
            os.remove(self.path('link'))

    def test_the_input_is_refused_as_output(self):
        for name in SAME:
            with self.subTest(name):
                data = WRITERS[name][1]
                self.write('in', data)
                os.link(self.path('in'), self.path('other'))
                for out in ('in', './in', 'other'):
                    self.expect_error(self.run_it(name, 'in', out), ': %s is also the input: name another' % out)
                    self.assertEqual(self.read('in'), data)
                os.remove(self.path('other'))

    def test_one_picture_is_not_the_other(self):
        self.write('in', DUMP)
        done = support.run_tool('compare', 'in', 'in', 'out', '--side', './out', cwd=self.folder)
        self.expect_error(done, './out: named for two outputs')
        self.expect_alone('in')

    def test_join_appends(self):
        self.write('a', CAPTURE)
        self.write('b', c.Capture().read(3).bytes())
        done = support.run_tool('join', 'a', 'b', '-o', 'a', cwd=self.folder)
        self.assertEqual((done.returncode, done.stderr), (0, ''))
        self.assertEqual(self.read('a'), CAPTURE[:-4] + c.Capture().read(3).bytes()[8:])
        with open(self.path('a'), 'ab') as file:
            self.expect_error(support.run_tool('join', 'a', 'b', cwd=self.folder, capture_output=False, stdout=file,
                                                 stderr=subprocess.PIPE), 'standard output is also the input')

    def test_a_dump_of_a_log_is_no_output(self):
        self.write('log', b'vram dump\n')
        self.write('dump', bytes(1048576))
        done = support.run_tool('from-log', 'log', 'dump', cwd=self.folder)
        self.expect_error(done, 'dump is also the input')
        self.assertEqual(len(self.read('dump')), 1048576)

    def test_pipes_and_devices_are_written_straight(self):
        for name in self.each():
            self.assertEqual(self.run_it(name, 'in', 'whole.ppm').returncode, 0)
            pipe, got = self.path('pipe.ppm'), []
            os.mkfifo(pipe)
            reader = threading.Thread(target=lambda: got.append(self.read('pipe.ppm')))
            reader.start()
            self.assertEqual(self.run_it(name, 'in', 'pipe.ppm').returncode, 0)
            reader.join()
            self.assertTrue(stat.S_ISFIFO(os.stat(pipe).st_mode))
            os.remove(pipe)
            self.assertEqual(got, [self.read('whole.ppm')])
            self.expect_error(self.run_it(name, 'in', '/dev/full'), '/dev/full: No space left')
            self.assertTrue(stat.S_ISCHR(os.stat('/dev/full').st_mode))

    def test_standard_output_by_its_name(self):
        """It is not emptied when it is a file that is appended to."""
        self.write('in', CAPTURE)
        self.write('log', b'before')
        with open(self.path('log'), 'ab') as file:
            done = support.run_tool('first', '4', 'in', '/dev/stdout', cwd=self.folder, capture_output=False,
                                    stdout=file)
        self.assertEqual((done.returncode, self.read('log')), (0, b'before' + CAPTURE))

    def test_terminal(self):
        for name in self.each():
            ours, theirs = pty.openpty()
            for out in ('-', '/dev/stdout'):
                done = self.run_it(name, 'in', out, capture_output=False, stdout=theirs, stderr=subprocess.PIPE)
                self.expect_error(done, ': the output is binary: redirect it')
            os.close(theirs)
            os.close(ours)

    def test_interrupted(self):
        # A process that was started in the background may ignore SIGINT, and so would its children.
        before = signal.signal(signal.SIGINT, signal.default_int_handler)
        self.addCleanup(signal.signal, signal.SIGINT, before)
        for number in (signal.SIGINT, signal.SIGTERM):
            self.write('out', b'old')
            for name, words in (('first', ['9', '-', 'out']), ('from-log', ['-', 'out']), ('picture', ['-', 'out'])):
                with self.subTest(name, number=number):
                    child = subprocess.Popen([sys.executable, '-m', 'psxgpu', name, *words], cwd=self.folder,
                                             stdin=subprocess.PIPE, stderr=subprocess.PIPE)
                    child.stdin.write(CAPTURE[:12] if name == 'first' else b'gp0 0\n')
                    child.stdin.flush()
                    while name == 'first' and len(os.listdir(self.folder)) < 2:
                        pass        # until it has begun to write
                    if name != 'first':
                        self.wait_until_it_reads(child)
                    child.send_signal(number)
                    _, said = child.communicate()
                    self.assertEqual((child.returncode, said), (128 + number, b'psxgpu %s: interrupted\n' % name.encode()))
                    self.assertEqual(self.read('out'), b'old')
                    self.expect_alone('out')

    @staticmethod
    def wait_until_it_reads(child):
        while True:
            with open('/proc/%d/wchan' % child.pid) as file:
                if 'pipe' in file.read():
                    return


class Corpus(support.InFolder):
    def test_split_does_not_replace_its_input(self):
        os.mkdir(self.path('parts'))
        for name in ('001.capture', '002.snapshot'):
            data = c.Capture()
            for _ in range(8):
                data.gp0(0).gp1(0x05000000)
            data.save(self.path('parts/' + name))
            before = self.read('parts/' + name)
            done = support.run_tool('corpus', 'split', 'parts/' + name, '--parts', '2', '--into', 'parts', '--player',
                                    'cat', cwd=self.folder)
            self.assertEqual(done.returncode, 2)
            self.assertIn('parts: the folder contains the input parts/%s: name another' % name, done.stderr)
            self.assertEqual(os.listdir(self.path('parts')), [name])
            self.assertEqual(self.read('parts/' + name), before)
            os.remove(self.path('parts/' + name))

    def test_join_leaves_the_old_file(self):
        self.write('golden', b'old')
        self.write('sums', b'no sums\n')
        done = support.run_tool('corpus', 'join', 'sums', '--golden', 'golden', cwd=self.folder)
        self.assertEqual((done.returncode, self.read('golden')), (2, b'old'))


class Writing(support.InFolder):
    """The function itself."""

    def test_new_file(self):
        old = os.umask(0o027)
        try:
            write_whole(self.path('new'), b'data')
        finally:
            os.umask(old)
        self.assertEqual((self.read('new'), stat.S_IMODE(os.stat(self.path('new')).st_mode)), (b'data', 0o640))

    def test_the_name_appears_at_the_end(self):
        with writing(self.path('new')) as file:
            file.write(b'data')
            self.assertFalse(os.path.exists(self.path('new')))
        self.assertEqual(os.listdir(self.folder), ['new'])

    def test_no_name(self):
        for path, error in (('', FileNotFoundError), (self.path('none') + '/', OSError),
                            (self.path('no/file'), OSError), (self.folder, IsADirectoryError), (self.path(300 * 'n'), OSError)):
            with self.subTest(path), self.assertRaises(error) as caught:
                write_whole(path, b'data')
            self.assertEqual(caught.exception.filename, path)
        self.assertEqual(os.listdir(self.folder), [])

    def test_a_private_file_stays_private(self):
        path = self.write('out', b'old')
        os.chmod(path, 0o600)
        with writing(path):
            part, = [name for name in os.listdir(self.folder) if name != 'out']
            self.assertEqual(stat.S_IMODE(os.stat(self.path(part)).st_mode), 0o600)

    @unittest.skipIf(os.geteuid() == 0, 'root may write to any file')
    def test_a_file_that_may_not_be_written(self):
        path = self.write('out', b'old')
        os.chmod(path, 0o400)
        self.assertRaises(PermissionError, write_whole, path, b'new')
        self.assertEqual(self.read('out'), b'old')

    def test_trouble_leaves_it(self):
        path = self.write('out', b'old')
        with self.assertRaises(ToolError), writing(path) as file:
            file.write(b'new')
            raise ToolError('no')
        self.assertEqual((self.read('out'), os.listdir(self.folder)), (b'old', ['out']))

    def test_save(self):
        """The modules' own functions for files write in the same way."""
        path = self.write('out', b'old')
        os.chmod(path, 0o751)
        c.Capture().save(path)
        self.assertEqual((self.read('out'), stat.S_IMODE(os.stat(path).st_mode)), (b'PSXGPUC1' + bytes(4), 0o751))
