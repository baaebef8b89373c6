"""The crate's writer against psxgpu_capture.h: the same calls write the same bytes."""
import os
import random
import shutil
import subprocess
import tempfile
import unittest

from psxgpu.capture import CLEAR_TABLE, LIST
from tests import support
from tests.recorder.test_header import LANGUAGES, SANE, STRICT
from tests.recorder.testing import RECORDER
from tests.rust.support import HERE, driver, needs_driver

RAM_BYTES = 0x200000
BLOCKS = (0x01000001, 0x01000003, 0x01000201, 0x01000203, 0x01000000, 0x01000002, 0x01000200, 0x01000202)
BAD = (0x01000601, 0x01000400, 0x00000201)
SCRIPTS = 60


def setUpModule():
    needs_driver()
    support.needs('gcc')()
    global FOLDER, IN_C
    FOLDER = tempfile.mkdtemp()
    IN_C = os.path.join(FOLDER, 'calls')
    source = os.path.join(HERE, 'calls.c')
    subprocess.run(LANGUAGES['c'] + STRICT + SANE + ['-I', RECORDER, source, '-o', IN_C], check=True)


def tearDownModule():
    shutil.rmtree(FOLDER)


def line(call, *given):
    return ' '.join([call, *('%x' % word for word in given)])


def address(r):
    """An address near the beginning of main memory, or near its end."""
    return 4 * r.randrange(64) if r.random() < 0.7 else RAM_BYTES - 4 * r.randrange(1, 16)


def a_list(r):
    """Calls that make a list of some nodes, and start it. It may end, lead to itself, or cross the end of memory."""
    nodes = [address(r) for _ in range(r.randrange(1, 6))]
    ends = [*nodes[1:], 0xFFFFFF if r.random() < 0.9 else nodes[0]]
    yield from (line('poke', node, r.randrange(6) << 24 | end) for node, end in zip(nodes, ends))
    yield line('dma', 2, nodes[0] | r.choice((0, 0, 1, 0xFF000000)), r.getrandbits(32), LIST)


def a_transfer(r):
    """A start of blocks, of a table, or one that is refused."""
    kind = r.random()
    if kind < 0.15:
        return line('dma', r.choice((2, 2, 3)), address(r), r.getrandbits(32), r.choice(BAD))
    if kind < 0.3:
        count = r.choice((0, 1, 2, 9)) if r.random() < 0.2 else r.randrange(1, 20)
        return line('dma', 6, address(r), count, CLEAR_TABLE)
    if kind < 0.35:
        return line('dma', 2, address(r), 0x00080000 + r.choice((0, 1)), r.choice(BLOCKS))
    return line('dma', 2, address(r), r.randrange(1, 4) << 16 | r.randrange(1, 9), r.choice(BLOCKS))


def some_calls(r):
    """Some calls of one kind."""
    kind = r.randrange(11)
    count = r.choice((1, 2, 3, 200, 20000)) if r.random() < 0.1 else r.randrange(1, 6)
    if kind == 0:
        return [line('gp0', r.getrandbits(32)) for _ in range(count)]
    if kind in (1, 2):
        return [line('poke', address(r), r.getrandbits(32)) for _ in range(8)] + [a_transfer(r)]
    if kind in (3, 4):
        return list(a_list(r))
    if kind == 5:
        return [line('gp1', r.getrandbits(32))]
    if kind == 6:
        return [line('skip', r.choice((0, 1, 7, 262143, 262145)) if r.random() < 0.2 else r.randrange(4))]
    if kind == 7 and r.random() < 0.04:
        return [line('state', r.getrandbits(32), *(r.getrandbits(32) for _ in range(r.randrange(7))))]
    return [line(('read', 'stat', 'frame', 'flush')[kind % 4])] * r.randrange(1, 4)


class Writer(unittest.TestCase):
    def both(self, calls):
        """What both write and print; they agree."""
        data = ''.join(call + '\n' for call in calls).encode()
        paths = [os.path.join(FOLDER, name) for name in ('c.capture', 'rust.capture')]
        in_c = subprocess.run([IN_C, paths[0]], input=data, stdout=subprocess.PIPE, check=True).stdout
        self.assertEqual(driver('record', paths[1], data=data), (0, in_c, ''))
        files = []
        for path in paths:
            with open(path, 'rb') as file:
                files.append(file.read())
        self.assertEqual(files[0], files[1])
        return files[0], in_c.decode()

    def test_no_call(self):
        self.assertEqual(self.both([]), (b'PSXGPUC2\0\0\0\0', 'refused 0 bytes 12\n'))

    def test_random_calls(self):
        refused = 0
        for seed in range(SCRIPTS):
            r = random.Random(seed)
            calls = [call for _ in range(r.randrange(200)) for call in some_calls(r)]
            with self.subTest(seed=seed):
                refused += int(self.both(calls)[1].split()[1])
        self.assertGreater(refused, 100)

    def test_long_records(self):
        """Records end where the buffer is full: of words, of main memory, and of reads."""
        calls = [line('gp0', k) for k in range(40000)] + [line('skip', 600000), line('read')]
        calls += [line('poke', 4 * k, k + 1) for k in range(20000)] + [line('dma', 2, 0, 20000, BLOCKS[0])]
        self.assertGreater(len(self.both(calls)[0]), 4 * 60000)

    def test_largest_transfers(self):
        for start in (BLOCKS[0], BLOCKS[4]):
            self.both([line('dma', 2, 0x100, 0, start), line('dma', 2, 0, 0x08001000, start | 0x200)])
            self.both([line('dma', 2, 0x100, 0x00080000, start | 0x200), line('dma', 6, 0x100, 0, CLEAR_TABLE)])


if __name__ == '__main__':
    unittest.main()
