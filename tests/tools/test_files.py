"""Captures, snapshots and dumps, plain and packed: opened by what they contain."""
import gzip
import io
import lzma
import os
import pathlib
from unittest import mock

from tests import support
from tests.tools.dumps_support import CAPTURE, HAND_MADE, HAS_ZSTD, zstd
import psxgpu.machine
from psxgpu import capture as c
from psxgpu.dumps.reader import Dump
from psxgpu.dumps.translation import Translation
from psxgpu.files import is_recording, opened, plain, read_capture
from psxgpu.packing import Damaged

SNAPSHOT = b'PSXGPUS1' + bytes(100)
PACKERS = {'gz': gzip.compress, 'xz': lzma.compress, **({'zst': zstd} if HAS_ZSTD else {})}


def capture_of(dump):
    """The bytes of a dump's capture."""
    return b''.join(Translation(Dump(io.BytesIO(dump), 'dump')))


class Opened(support.InFolder):
    def test_by_content(self):
        """Whatever a file is called and however it is packed. What is none of ours comes as it is."""
        for data, wanted in ((CAPTURE, CAPTURE), (SNAPSHOT, SNAPSHOT), (b'', b''), (b'x', b'x'),
                             (b'\x1f\x8b', b'\x1f\x8b'), (HAND_MADE, capture_of(HAND_MADE))):
            self.assertEqual(read_capture(self.write('a.capture', data)), wanted)
            for kind, pack in PACKERS.items():
                with self.subTest(kind, data=data[:8]):
                    path = self.write('b.capture', pack(data))
                    self.assertEqual(read_capture(path), wanted)
                    self.assertEqual(is_recording(path), data in (CAPTURE, SNAPSHOT, HAND_MADE))
                    with plain(path) as copy, open(copy, 'rb') as file:
                        self.assertEqual(file.read(), wanted)
                    self.assertFalse(os.path.exists(copy))
        path = self.write('a.capture', CAPTURE)
        with plain(path) as same:
            self.assertEqual(same, path)

    def test_several_members(self):
        """Packed files one after another are one file."""
        for kind, pack in PACKERS.items():
            path = self.write('a', pack(CAPTURE[:1000]) + pack(CAPTURE[1000:]))
            self.assertEqual(read_capture(path), CAPTURE, kind)

    def test_standard_input(self):
        for kind, pack in PACKERS.items():
            path = self.write('a', pack(CAPTURE))
            with open(path, 'rb') as file:
                done = support.run_tool('first', '4', stdin=file, text=False)
            self.assertEqual((done.returncode, done.stdout, done.stderr),
                             (0, c.Capture().gp0(c.load(0, 0, 64, 64, [(7 * k * k) & 0xFFFF for k in range(4096)])[:4])
                              .bytes(), b''), kind)

    def test_damaged(self):
        """What is before the fault comes first."""
        for kind, pack in PACKERS.items():
            whole = pack(CAPTURE)
            for data in (whole[:-5], whole[:len(whole) // 2], whole[:20], *([whole + b'x'] if kind != 'xz' else [])):
                path, got = self.write('a', data), []
                with self.subTest(kind, size=len(data)):
                    with self.assertRaisesRegex(Damaged, '^name: damaged: .') as bad, opened(path, 'name') as file:
                        got.extend(iter(lambda: file.read(100), b''))
                    self.assertNotIn('\n', str(bad.exception))
                    self.assertTrue(CAPTURE.startswith(b''.join(got)))
                    if len(data) > len(whole) - 9 and kind != 'zst':     # which has one block here
                        self.assertTrue(got)

    def test_every_tool_reads_dumps(self):
        path = self.write('a.psxgpu', HAND_MADE)
        for words in (['first', '2', path], ['join', path, path]):
            done = support.run_tool(*words, text=False)
            self.assertEqual((done.returncode, done.stdout[:8], done.stderr), (0, b'PSXGPUC1', b''))
        done = support.run_tool('first', '2', self.write('cut.psxgpu', HAND_MADE[:51]))
        self.assertEqual((done.returncode, done.stderr.count('\n')), (2, 1), done.stderr)
        self.assertIn('cut.psxgpu: byte 51: the dump ends inside a packet', done.stderr)


@support.needs_player
class Tools(support.InFolder):
    def test_dumps(self):
        """Each tool that asks the player reads a packed dump as the capture that it is."""
        dump = self.write('a.psxgpu.gz', gzip.compress(HAND_MADE))
        capture = self.write('a.capture', read_capture(dump))
        vram = '%s vram' % support.PLAYER
        for words in (['packets', 'FILE'], ['check', 'FILE'], ['bisect', 'FILE', vram, vram],
                      ['audit', 'FILE', support.PLAYER, support.PLAYER]):
            runs = [support.run_tool(*[path if word == 'FILE' else word for word in words]) for path in (dump, capture)]
            with self.subTest(words[0]):
                self.assertEqual([(run.returncode, run.stderr) for run in runs], [(0, '')] * 2)
                self.assertEqual(runs[0].stdout, runs[1].stdout)
                self.assertTrue(runs[0].stdout)


class Module(support.InFolder):
    def test_play(self):
        """`psxgpu.machine.play` gives the library the capture."""
        library, capture = mock.Mock(), capture_of(HAND_MADE)
        library.output_copy.return_value = 0
        paths = [self.write('a.psxgpu', HAND_MADE), pathlib.Path(self.write('b.psxgpu.gz', gzip.compress(HAND_MADE))),
                 self.write('a.capture.xz', lzma.compress(capture))]
        with mock.patch('psxgpu.machine.playing.library', lambda: library):
            for path in paths:
                psxgpu.machine.play(path, 'vram')
                self.assertEqual(library.play_output.call_args.args[2:4], (capture, len(capture)))
            with self.assertRaisesRegex(ValueError, 'byte 51: the dump ends inside a packet'):
                psxgpu.machine.play(self.write('cut', HAND_MADE[:51]))
