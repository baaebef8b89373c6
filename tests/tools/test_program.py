"""What the program says to a person: files by name, hints at a terminal, and none where standard error is none."""
import os
import pty
import subprocess
import tempfile
import unittest

from psxgpu.capture import Capture, rectangle
from tests.interruptions import interruptible, send_interrupted

PLAYER = os.environ.get('PLAYER', 'crates/psxgpu_tool/out/psxgpu_tool')
EMPTY = Capture().stat().bytes()


def started(words, source, out=None):
    """Starts the program with standard error at a terminal; returns the run and our end of the terminal."""
    ours, theirs = pty.openpty()
    run = subprocess.Popen([PLAYER, *words], stdin=source, stdout=out or subprocess.DEVNULL, stderr=theirs)
    os.close(theirs)
    return run, ours


def ended(run, ours):
    """Returns the status of a run and the lines that it wrote to the terminal."""
    said = b''
    while True:
        try:
            piece = os.read(ours, 4096)
        except OSError:
            break
        if not piece:
            break
        said += piece
    os.close(ours)
    return run.wait(), said.decode().replace('\r\n', '\n').splitlines()


def at_terminal(words, data=b'', out=None):
    """Runs the program with standard error at a terminal; returns its status and the lines that it wrote there."""
    with tempfile.TemporaryFile() as source:
        source.write(data)
        source.seek(0)
        return ended(*started(words, source, out))


def piped(words, data=b''):
    run = subprocess.run([PLAYER, *words], input=data, capture_output=True)
    return run.returncode, run.stdout, run.stderr.decode().splitlines()


class Files(unittest.TestCase):
    def setUp(self):
        self.folder = tempfile.TemporaryDirectory()
        self.name = os.path.join(self.folder.name, 'my.capture')
        with open(self.name, 'wb') as file:
            file.write(Capture().gp0(rectangle(0xFF, 0, 0, 16, 16)).bytes())

    def tearDown(self):
        self.folder.cleanup()

    def test_a_last_word_is_the_file_that_is_read(self):
        with open(self.name, 'rb') as file:
            data = file.read()
        for words in [['play'], ['vram'], ['list'], ['report'], ['flat'], ['slim'], ['cut', '1'], ['pixel', '1', '1'],
                      ['frames']]:
            with self.subTest(words=words):
                self.assertEqual(piped([*words, self.name]), piped(words, data))

    def test_a_file_that_cannot_be_opened(self):
        status, out, said = piped(['play', '/no/such.capture'])
        self.assertEqual((status, out), (3, b''))
        self.assertEqual(said, ['psxgpu: /no/such.capture: No such file or directory (os error 2)'])
        for name in ['no_such.capture', './no_such']:
            with self.subTest(name=name):
                status, out, said = piped(['vram', name])
                self.assertEqual((status, out, len(said)), (3, b'', 1))

    def test_a_last_word_that_is_no_file_is_usage(self):
        for words in [['vram', 'extra'], [], ['demo', '0'], ['demo', '007'], ['demo', '100001']]:
            with self.subTest(words=words):
                self.assertEqual(piped(words, EMPTY), (1, b'', ['psxgpu: usage']))

    def test_an_existing_file_without_a_point(self):
        os.rename(self.name, os.path.join(self.folder.name, 'extra'))
        run = subprocess.run([os.path.abspath(PLAYER), 'list', 'extra'], capture_output=True, cwd=self.folder.name)
        self.assertEqual((run.returncode, run.stderr), (0, b''))
        self.assertTrue(run.stdout)

    def test_words_that_ask_for_help(self):
        help_text = piped(['--help'])
        self.assertEqual(help_text[0], 0)
        for words in [['-h'], ['help'], ['cut', '--help'], ['play', '-h']]:
            with self.subTest(words=words):
                self.assertEqual(piped(words), help_text)

    def test_a_command_that_reads_nothing_takes_no_file(self):
        self.assertEqual(piped(['demo', '3', self.name]), (1, b'', ['psxgpu: usage']))


class Hints(unittest.TestCase):
    def test_programs_get_the_lines_alone(self):
        self.assertEqual(piped(['plya']), (1, b'', ['psxgpu: usage']))
        self.assertEqual(piped(['play'], b'\x1f\x8b\x08\0\0\0\0\0'),
                         (2, b'', ['psxgpu: not-capture at event 1 byte 0']))

    def test_what_is_wrong_with_the_words(self):
        for words, hint in [([], 'no command was given'),
                            (['plya'], 'there is no command "plya"; the nearest is play'),
                            (['xyzzy'], 'there is no command "xyzzy"'),
                            (['vram', 'extra'], 'there is no file "extra"'),
                            (['cut'], 'cut takes a number of events, 1 to 4294967295, and at most a file name'),
                            (['demo', '0'], 'demo takes a number of packets, 1 to 100000'),
                            (['pixel', '1024', '0'], 'pixel takes a column and a row, each 0 to 1023, and at most a file name'),
                            (['play', 'a', 'b'], 'too many arguments: this command takes at most a file name'),
                            (['--help', 'x'], 'too many arguments: this command takes none'),
                            ([PLAYER, 'list'], '%s is a file: a command comes first, as in psxgpu_tool list %s' % (PLAYER, PLAYER)),
                            ([b'list', b'\xff.capture'], 'an argument is not UTF-8: redirect a file of such a name, '
                                                          'as in psxgpu_tool list < FILE')]:
            with self.subTest(words=words):
                self.assertEqual(at_terminal(words), (1, ['psxgpu: usage', 'psxgpu: ' + hint
                                                          + '; psxgpu_tool --help lists the commands']))

    def test_what_the_input_seems_to_be(self):
        for data, hint in [(b'', 'the input is empty'),
                           (b'PSXGPUDUMPv1....', 'the input is a GPU dump of DuckStation or PCSX-Redux: '
                                                 'psxgpu from-dump FILE'),
                           (b'\x1f\x8b\x08\0\0\0\0\0', 'the input is compressed: gzip -dc FILE | psxgpu_tool COMMAND'),
                           (b'\x28\xb5\x2f\xfd\0\0\0\0', 'the input is compressed: zstd -dc FILE | psxgpu_tool COMMAND'),
                           (b'\xfd7zXZ\0\0\0', 'the input is compressed: xz -dc FILE | psxgpu_tool COMMAND'),
                           (b'PK\x03\x04\0\0\0\0', 'the input is a zip archive: unzip -p FILE | psxgpu_tool COMMAND'),
                           (b'\x89PNG\r\n\x1a\n', 'the input is a picture, not a capture'),
                           (b'gp0 e100', 'the input is text: psxgpu from-log FILE makes a capture of a log')]:
            with self.subTest(data=data):
                status, said = at_terminal(['play'], data)
                self.assertEqual((status, said[-1]), (2, 'psxgpu: ' + hint))

    def test_a_capture_has_no_hint(self):
        self.assertEqual(at_terminal(['play'], EMPTY), (0, []))

    def test_what_a_refusal_means(self):
        capture = Capture().gp0(rectangle(0xFF, 0, 0, 16, 16)).stat().bytes()
        for words, data, hints in [(['play'], capture[:-2], ['last: 2 rectangle 780000ff',
                                                             'everything up to event 3 was processed: '
                                                             'psxgpu mend FILE completes the capture']),
                                   (['play'], EMPTY[:9], ['the input ends before its first event is complete']),
                                   (['cut', '9'], EMPTY, ['the capture has 1 event: cut takes 1']),
                                   (['cut', '9'], capture, ['last: 2 rectangle 780000ff',
                                                            'the capture has 3 events: cut takes 1 to 3'])]:
            with self.subTest(words=words, hints=hints):
                said = at_terminal(words, data)[1]
                self.assertEqual(said[-len(hints):], ['psxgpu: ' + hint for hint in hints])

    def test_a_directory_and_a_full_disk(self):
        status, said = at_terminal(['play', '/'])
        self.assertEqual((status, said[-1]), (3, 'psxgpu: Is a directory (os error 21)'))
        with open('/dev/full', 'wb') as full:
            status, said = at_terminal(['play'], EMPTY, full)
        self.assertEqual((status, said[-1]), (4, 'psxgpu: No space left on device (os error 28)'))

    def test_a_broken_pipe_is_quiet(self):
        ours, theirs = os.pipe()
        os.close(ours)
        with os.fdopen(theirs, 'wb') as gone:
            self.assertEqual(at_terminal(['vram'], EMPTY, gone), (4, []))

    def test_an_interrupted_read_is_no_error(self):
        """A stop interrupts reads that wait for input. The reads after it succeed."""
        ours, theirs = interruptible()
        with ours, theirs:
            run, terminal = started(['play'], theirs)
            send_interrupted(run, ours, EMPTY)
            self.assertEqual(ended(run, terminal), (0, []))

    def test_bytes_are_kept_from_the_screen(self):
        ours, theirs = pty.openpty()
        status, said = at_terminal(['vram'], EMPTY, theirs)
        os.close(theirs)
        os.close(ours)
        self.assertEqual((status, said),
                         (1, ['psxgpu: the output is binary: redirect it to a file or a program, as in > FILE']))
