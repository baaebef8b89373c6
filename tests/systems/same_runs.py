"""Runs of a program of another system beside the same of this machine's: names, pipes and terminals.

A test of a system is a `same_runs.Same` with its player."""
import fcntl
import os
import pty
import re
import select
import shutil
import signal
import struct
import subprocess
import tempfile
import termios
import unittest
from typing import Any, List, Optional, Tuple

ROOT = os.path.dirname(os.path.dirname(os.path.dirname(os.path.abspath(__file__))))
NATIVE = os.environ.get('PLAYER', os.path.join(ROOT, 'crates', 'psxgpu_tool', 'out', 'psxgpu_tool'))
CAPTURE = os.path.join(ROOT, 'examples', 'two-fills.capture')
SECONDS = 120
COLUMNS = 250       # of the terminal, so that no line is wrapped
ESCAPES = re.compile(rb'\x1b\[[?0-9;]*[A-Za-z]|\r')
NAMES = ['日本語.capture', 'file with spaces.capture', 'Größe — é.capture', '\U0001F3AE.capture', "it's [1].capture"]
AT_TERMINAL = ('vram two-fills.capture', 'plaj two-fills.capture', 'sums none.capture', 'sums 日本語.capture',
               'sums two-fills.capture', 'two-fills.capture', 'list two-fills.capture more')
END, GP0, GP1, READ, STAT = 0, 2, 3, 4, 5
LATER = 4096        # `slim` writes a record that many events later

Result = Tuple[int, bytes, bytes]


def record(kind: int, count: int, *words: int) -> bytes:
    """Returns a record of a capture."""
    return struct.pack('<%dI' % (1 + len(words)), kind << 24 | count, *words)


def run(program: str, *words: str, data: bytes = b'', folder: Optional[str] = None, **how: Any) -> Result:
    """Returns the status and both streams of a run."""
    how.setdefault('stdout', subprocess.PIPE)
    done = subprocess.run([program, *words], input=data, stderr=subprocess.PIPE, cwd=folder, timeout=SECONDS, **how)
    return done.returncode, done.stdout, done.stderr


def answers(program: str, *words: str, talk: List[Tuple[bytes, bytes]]) -> Tuple[List[bytes], int]:
    """Runs a program beside a peer that waits for an answer to each text before it sends the next one. `talk` has the
    texts and what answers them. Returns the answers, the last one with all that came after it, and the status."""
    found = []
    with subprocess.Popen([program, *words], stdin=subprocess.PIPE, stdout=subprocess.PIPE, bufsize=0) as run:
        assert run.stdin and run.stdout
        for sent, wanted in talk:
            run.stdin.write(sent)
            answer = b''
            while len(answer) < len(wanted) and select.select([run.stdout], [], [], SECONDS)[0]:
                piece = run.stdout.read(len(wanted) - len(answer))
                if not piece:
                    break
                answer += piece
            found.append(answer)
            if answer != wanted:
                run.kill()
                break
        run.stdin.close()
        found[-1] += run.stdout.read()
        return found, run.wait(SECONDS)


def at_terminal(program: str, *words: str) -> Tuple[int, bytes]:
    """Returns the status of a run whose streams are a terminal, and its text without what moves the cursor."""
    process, terminal = pty.fork()
    if process == 0:
        os.chdir(os.path.dirname(CAPTURE))
        os.execv(program, [program, *words])
    fcntl.ioctl(terminal, termios.TIOCSWINSZ, struct.pack('<4H', 50, COLUMNS, 0, 0))
    signal.signal(signal.SIGALRM, lambda *_: os.kill(process, signal.SIGKILL))
    signal.alarm(SECONDS)
    text = b''
    try:
        while True:
            text += os.read(terminal, 65536)
    except OSError:     # the other end is closed
        pass
    _, status = os.waitpid(process, 0)
    signal.alarm(0)
    os.close(terminal)
    return os.waitstatus_to_exitcode(status), ESCAPES.sub(b'', text)


class Same(unittest.TestCase):
    """What a program of every system has to do. `player`: the path of what starts it."""
    player: str

    def setUp(self) -> None:
        place = tempfile.TemporaryDirectory()
        self.addCleanup(place.cleanup)
        self.folder = place.name
        with open(CAPTURE, 'rb') as file:
            self.capture = file.read()

    def same(self, *words: str, **how: Any) -> Result:
        """Compares a run, and returns what it gave."""
        want = run(NATIVE, *words, **how)
        self.assertEqual(run(self.player, *words, **how), want)
        return want

    def test_names(self) -> None:
        for name in NAMES:
            with self.subTest(name=name):
                missing = self.same('sums', name, folder=self.folder)
                self.assertEqual(missing[0], 3)
                self.assertIn(name.encode(), missing[2])
                shutil.copy(CAPTURE, os.path.join(self.folder, name))
                self.assertEqual(self.same('sums', name, folder=self.folder)[0], 0)

    def test_folder(self) -> None:
        self.assertEqual(self.same('play', '.', folder=self.folder)[0], 3)

    def test_binary(self) -> None:
        """No byte of a stream is changed: a capture and a dump with 0Ah, 0Dh and 1Ah in them."""
        words = [0xA0000000, 0, 0x00010004, 0x0A0D1A0A, 0x1A0A0D0D]
        data = b'PSXGPUC1' + record(GP0, len(words), *words) + record(END, 0)
        self.assertIn(b'\n\x1a\r\n', self.same('vram', data=data)[1])
        self.assertEqual(self.same('flat', data=data)[0], 0)

    def test_co_process(self) -> None:
        """Each command that writes something for the events sent so far writes it before it waits for more."""
        fill, box = [0x02FFFFFF, 0, 0x00100010], [0x60FFFFFF, 0, 0x00100010]
        head, first, second = b'PSXGPUC1', record(GP0, 3, *fill), record(GP0, 3, *box)
        store, stat, end = record(GP0, 3, 0xC0000000, 0, 0x00010002), record(STAT, 1), record(END, 0)
        words = [record(GP0, 1, word) for word in fill + box]
        flat = b'PSXGPUC2' + b''.join(words[:3]), b''.join(words[3:])
        whole = self.same('cut', '6', data=head + first + second + stat + end)[1]
        shown = head + first + record(GP1, 1, 0x03000000) + record(GP1, 1, 0x05000000)
        frame, sums = (self.same(command, data=shown + end)[1] for command in ('frames', 'sums'))
        line = sums.splitlines(keepends=True)[0]
        for command, talk in (
                ('play', [(head + first + store + record(READ, 1), b'7fff7fff\n'), (stat, b'14802000\n'),
                          (end, b'status 14802000\n')]),
                ('list', [(head + first, b'3 fill 02ffffff 0 0 15 15\n'), (second, b'6 rectangle 60ffffff 0 0 0 0\n'),
                          (stat + end, b'')]),
                ('pixel 1 1', [(head + first, b'3 fill 02ffffff 0000 7fff\n'),
                               (record(GP0, 3, 0x02000000, *fill[1:]), b'6 fill 02000000 7fff 0000\n'), (end, b'')]),
                ('flat', [(head + first, flat[0]), (second, flat[1]), (stat, stat), (end, end)]),
                ('cut 6', [(head + first, b''), (second, whole[:-8]), (stat, stat), (end, end)]),
                ('slim', [(head + first + stat * (LATER - 3), b''), (stat, head + words[0]), (stat, words[1]),
                          (end, words[2] + stat * (LATER - 1) + end)]),
                ('frames', [(shown, frame[:len(frame) // 2]), (end, frame[len(frame) // 2:])]),
                ('sums', [(shown, line), (end, sums[len(line):])])):
            with self.subTest(command=command):
                wanted = [answer for _, answer in talk]
                self.assertEqual(answers(self.player, *command.split(), talk=talk), (wanted, 0))

    def test_closed_pipe(self) -> None:
        """Nobody reads any more: status 4."""
        for command in ('vram', 'play', 'sums'):
            results = []
            for program in (NATIVE, self.player):
                reading, writing = os.pipe()
                os.close(reading)
                with os.fdopen(writing, 'wb') as closed:
                    results.append(run(program, command, data=self.capture, stdout=closed))
            with self.subTest(command=command):
                self.assertEqual(results[1], results[0])
                self.assertEqual(results[0][0], 4)

    def test_full_disk(self) -> None:
        for command in ('vram', 'play', 'cut 3'):
            with self.subTest(command=command), open('/dev/full', 'wb') as full:
                self.assertEqual(self.same(*command.split(), data=self.capture, stdout=full)[0], 4)

    def test_terminal(self) -> None:
        """What a person sees at a console: hints after the lines that programs read, and names as they are."""
        for command in AT_TERMINAL:
            with self.subTest(command=command):
                self.assertEqual(at_terminal(self.player, *command.split()), at_terminal(NATIVE, *command.split()))
