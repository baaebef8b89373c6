"""Tests of psxgpu_capture.h It is compiled as C99 and as C++17, with sanitizers, and
both write the same bytes. Where PLAYER names the built program, it plays what was written."""
import errno
import os
import shutil
import subprocess
import tempfile
import unittest

from tests import support
from tests.recorder.testing import HERE, RECORDER, TOP, CLEAR_TABLE, LIST, PLAYER, Capture, event_list, file_of

STRICT = ['-Wall', '-Wextra', '-pedantic', '-Wconversion', '-Wshadow', '-Werror', '-g', '-O1']
LANGUAGES = {'c': ['gcc', '-std=c99'], 'cpp': ['g++', '-x', 'c++', '-std=c++17']}
SANE = ['-fsanitize=address,undefined', '-fno-sanitize-recover=all']
MOST = 300000  # bytes, in place of 1 GB
STORE = [0xC0000000, 0x00080008, 0x00020004]


def compile_test(folder, name, command):
    path = os.path.join(folder, name)
    subprocess.run(command + STRICT + ['-I', RECORDER, os.path.join(HERE, 'test_capture.c'), '-o', path], check=True)
    return path


def setUpModule():
    support.needs('gcc', 'g++')()
    global FOLDER, PROGRAMS, SMALL, POOR, INTERRUPTED
    FOLDER = tempfile.mkdtemp()
    PROGRAMS = [compile_test(FOLDER, name, command + SANE) for name, command in LANGUAGES.items()]
    SMALL = compile_test(FOLDER, 'small', LANGUAGES['c'] + SANE + ['-DPSXGPU_CAPTURE_MOST=%du' % MOST])
    POOR = compile_test(FOLDER, 'poor', LANGUAGES['c'] + SANE + ['-DNO_MEMORY'])
    INTERRUPTED = compile_test(FOLDER, 'interrupted', LANGUAGES['c'] + SANE + ['-DINTERRUPTED'])


def tearDownModule():
    shutil.rmtree(FOLDER)


def run(program, case, most=None, path=None):
    """What a case says, and the file that it leaves."""
    path = path or os.path.join(FOLDER, 'test.capture')
    said = subprocess.run([program, case, path], stdout=subprocess.PIPE, stderr=subprocess.DEVNULL,
                          preexec_fn=file_of(most) if most else None)
    if not os.path.exists(path):
        return said.stdout.decode().split(), None
    with open(path, 'rb') as file:
        data = file.read()
    os.remove(path)
    return said.stdout.decode().split(), data


def a_square(capture, mark):
    capture.gp0(0xE3000000, 0xE407FFFF, 0x600000FF, 0x00080008, 0x00040004).gp1(0x03000000).gp0(STORE)
    return capture.read(2).skip(2).stat(2).gp1(0x3F000000 | mark)


def a_list(capture, word, first):
    """What a list by way of a table takes; the second time nothing but what is not known."""
    capture.dma(6, 0x100C, 4, CLEAR_TABLE).ram(0x1008, 0x2000)
    capture.ram(*([0x2000, 0x03001004, word, 0x00080008, 0x00020002] if first else [0x2004, word]))
    return capture.dma(2, 0x100C, 0, LIST).gp1(0x3F000001 if first else 0x3F000002)


class Header(unittest.TestCase):
    def both(self, case, want, said=()):
        """C and C++ write these bytes."""
        for program in PROGRAMS:
            words, data = run(program, case)
            self.assertEqual(data, want)
            self.assertEqual(words, list(said) + ['close', '0', str(len(want)), '0'])

    def play(self, command, data, want):
        if PLAYER:
            done = subprocess.run([PLAYER, command], input=data, stdout=subprocess.PIPE, stderr=subprocess.PIPE)
            self.assertEqual((done.returncode, done.stdout.decode().splitlines()), (0, want))

    def test_ports(self):
        want = a_square(Capture(2), 1).bytes()
        self.both('ports', want)
        self.play('play', want, ['001f001f'] * 2 + ['14002000'] * 2 + ['status 14002000'])

    def test_lists(self):
        want = a_list(a_list(Capture(2).gp0(0xE407FFFF), 0x600000FF, True), 0x6000FFFF, False).bytes()
        self.both('lists', want)
        self.play('list', want, ['1 environment e407ffff -', '8 rectangle 600000ff 8 8 9 9',
                                 '13 rectangle 6000ffff 8 8 9 9'])

    def test_transfers(self):
        want = Capture(2).ram(0x3000, 1, 2, 3, 4).dma(2, 0x3000, 4, 0x01000001).dma(2, 0x300C, 0x00020002, 0x01000203)
        want.ram(0x1FFFFC, 5).ram(0, 6).dma(2, 0x1FFFFC, 2, 0x01000001).dma(2, 0x3004, 2, 0x01000000)
        want.ram(0x3004, 2, 3).dma(2, 0x3000, 4, 0x01000001).dma(6, 4, 3, 0x01000002)
        self.both('transfers', want.bytes())

    def test_refused(self):
        want = Capture(2).dma(2, 0xFFFFFF, 0, LIST).bytes()
        self.both('refused', want, ['refused', '4'])

    def test_state(self):
        cells = [k * 40503 % 2 ** 32 >> 8 & 0xFFFF for k in range(512 * 1024)]
        want = Capture(2).gp1(0)
        for top in (0, 256):
            for left in (0, 512):
                rows = [cells[1024 * y + left:1024 * y + left + 512] for y in range(top, top + 256)]
                words = [row[x] | row[x + 1] << 16 for row in rows for x in range(0, 512, 2)]
                want.gp0(0xA0000000, top << 16 | left, 0x01000200, words)
        want.gp0(0xE1000600, 0xE2000001, 0xE3000002, 0xE407FFFF, 0xE5000003, 0xE6000000).gp1(0x08000001, 0x03000000)
        for program in PROGRAMS:
            data = run(program, 'state')[1]
            self.assertEqual(event_list(data), event_list(want.bytes()))
        if PLAYER:
            dump = subprocess.run([PLAYER, 'vram'], input=data, stdout=subprocess.PIPE, check=True).stdout
            self.assertEqual(dump, b''.join(cell.to_bytes(2, 'little') for cell in cells))


class Page(unittest.TestCase):
    def test_the_page_s_emulator(self):
        """The few lines that docs/RECORDING.md shows compile, and record what they say."""
        with open(os.path.join(TOP, 'docs', 'RECORDING.md')) as page:
            lines = page.read().split('    #include <string.h>\n', 1)[1].splitlines()
        end = next(k for k, line in enumerate(lines) if line and not line.startswith('    '))
        source = os.path.join(FOLDER, 'page.c')
        with open(source, 'w') as file:
            file.write('#include <string.h>\n' + '\n'.join(line[4:] for line in lines[:end]) + '\n')
        for language in LANGUAGES.values():
            program = os.path.join(FOLDER, 'page')
            subprocess.run(language + STRICT + ['-I', RECORDER, source, '-o', program], check=True)
            subprocess.run([program], check=True, cwd=FOLDER)
            with open(os.path.join(FOLDER, 'mine.capture'), 'rb') as file:
                want = Capture(2).gp0(0xE3000000, 0xE403BD3F, 0x600000FF, 0x00080008, 0x00100010).stat().gp1(0x3F000001)
                self.assertEqual(file.read(), want.bytes())


class Endings(unittest.TestCase):
    def test_killed(self):
        for program in PROGRAMS:
            _, data = run(program, 'killed')
            self.assertEqual(data + bytes(4), a_square(a_square(Capture(2), 1), 2).bytes())

    def test_longest_file(self):
        whole = event_list(run(PROGRAMS[0], 'many')[1])
        words, data = run(SMALL, 'many')
        self.assertEqual(words, ['close', str(errno.EFBIG), str(len(data)), str(errno.EFBIG)])
        self.assertTrue(MOST - 65536 < len(data) <= MOST and data.endswith(bytes(4)))
        part = event_list(data)
        self.assertEqual(part, whole[:len(part)])

    def test_full_disk(self):
        whole = event_list(run(PROGRAMS[0], 'many')[1])
        for most in (8, 9, 10, 11, 12, 4000, 4015, 4016, 4017, 4021, 4022, 70001, 411003, 1400001):
            words, data = run(PROGRAMS[0], 'many', most)
            self.assertEqual(words[:2], ['close', str(errno.EFBIG)])
            self.assertLessEqual(len(data), most)
            part = event_list(data + bytes(4))
            self.assertEqual(part, whole[:len(part)])
            self.assertLess(most - len(data), 65536 + 8)
            self.assertLessEqual(int(words[2]), len(data))

    def test_interrupted_writes(self):
        """A signal interrupts writes: the file is as it is without."""
        for case in ('ports', 'lists', 'many', 'nothing'):
            with self.subTest(case=case):
                self.assertEqual(run(INTERRUPTED, case), run(PROGRAMS[0], case))

    def test_no_memory(self):
        words, data = run(POOR, 'lists')
        self.assertEqual(words, ['close', str(errno.ENOMEM), str(len(data)), str(errno.ENOMEM)])
        self.assertEqual(data, Capture(2).gp0(0xE407FFFF).bytes())

    def test_no_file(self):
        words, data = run(PROGRAMS[0], 'ports', path=os.path.join(FOLDER, 'nowhere', 'a.capture'))
        self.assertEqual((words[:2], data), (['open', str(errno.ENOENT)], None))
        self.assertEqual(words[2:], ['close', str(errno.ENOENT), '0', str(errno.ENOENT)])

    def test_no_space_at_all(self):
        words, _ = run(PROGRAMS[0], 'ports', most=4)
        self.assertEqual(words[:4], ['open', str(errno.EFBIG), 'close', str(errno.EFBIG)])
