"""Tests of the reader's half of psxgpu_capture.h. It is compiled as C99 and as C++17, with sanitizers. Both give the
events that psxgpu.capture gives, and where PLAYER names the built program, they refuse the captures that it refuses,
with its line."""
import errno
import glob
import gzip
import os
import random
import re
import shutil
import struct
import subprocess
import tempfile
import unittest

from tests import support
from tests.recorder.test_header import LANGUAGES, SANE, STRICT
from tests.recorder.testing import HERE, PLAYER, RECORDER, Capture, events, records

KINDS = RAM, GP0, GP1, READ, STAT, DMA, BEGIN, TURN, SKIP = range(1, 10)
MOST = 4096                 # bytes, in place of 1 GB
OF_THE_MACHINE = 'bad-dma', 'dma-too-long', 'list-loop'     # refusals that the bytes alone do not decide


def compiled(name, command):
    path = os.path.join(FOLDER, name)
    source = os.path.join(HERE, 'test_reader.c')
    subprocess.run(command + STRICT + SANE + ['-I', RECORDER, source, '-o', path], check=True)
    return path


def setUpModule():
    support.needs('gcc', 'g++')()
    global FOLDER, PROGRAMS, SMALL, POOR, INTERRUPTED
    FOLDER = tempfile.mkdtemp()
    PROGRAMS = [compiled(name, command) for name, command in LANGUAGES.items()]
    SMALL = compiled('small', LANGUAGES['c'] + ['-DPSXGPU_CAPTURE_MOST=%du' % MOST])
    POOR = compiled('poor', LANGUAGES['c'] + ['-DNO_MEMORY'])
    INTERRUPTED = compiled('interrupted', LANGUAGES['c'] + ['-DINTERRUPTED'])


def tearDownModule():
    shutil.rmtree(FOLDER)


def run(program, data, *words):
    """Status, lines and error of a program that reads `data`."""
    done = subprocess.run([program, *words], input=data, stdout=subprocess.PIPE, stderr=subprocess.PIPE, check=False)
    return done.returncode, done.stdout.decode(errors='replace').splitlines(), done.stderr.decode()


def lines_of(found, first=1):
    """Events as the program prints them."""
    out = []
    for number, (kind, count, words) in enumerate(events(found), first):
        channel = [str(count)] if kind in (DMA, BEGIN) else []
        out.append(' '.join(['%d' % number, '%d' % kind, *channel, *('%08x' % word for word in words)]))
    return out


def examples():
    """The bytes of the examples by their names."""
    for path in sorted(glob.glob(os.path.join(support.EXAMPLES, '*.capture*'))):
        with (gzip.open if path.endswith('.gz') else open)(path, 'rb') as file:
            yield os.path.basename(path), file.read()


def random_capture(r, kinds):
    """A capture of some records of these kinds. No transfer of its DMA starts."""
    out = Capture(r.choice((2, 3)) if set(kinds) & {BEGIN, TURN, SKIP} else r.choice((1, 2, 3)))
    for kind in r.choices(kinds, k=r.randrange(12)):
        words = [r.getrandbits(32) for _ in range(r.randrange(1, 6))]
        if kind == RAM:
            out.ram(4 * r.randrange(1000), *words)
        elif kind == GP0:
            out.gp0(*words)
        elif kind == GP1:
            out.gp1(words[0])
        elif kind in (DMA, BEGIN):
            out.record(kind, 2 if kind == BEGIN else r.choice((2, 6)), [r.getrandbits(24), r.getrandbits(32), 0])
        else:
            out.record(kind, 1 if kind == STAT else r.randrange(1, 5))
    return out.bytes()


def damaged(r, data):
    """The same with a byte of another value, or cut, or with a word more or less."""
    at, way = r.randrange(len(data)), r.randrange(5)
    if way == 0:
        return data[:at]
    if way == 1:
        return data[:at] + bytes([r.randrange(256)]) + data[at + 1:]
    at = min(len(data), 8 + at // 4 * 4)
    if way == 2:
        return data[:at] + data[at + 4:]
    tag = r.choice((r.getrandbits(32), r.randrange(12) << 24 | r.choice((0, 1, 2, 6, 262145, 524289)), 0))
    return data[:at] + struct.pack('<I', tag) + data[at + (4 if way == 3 else 0):]


class Reader(unittest.TestCase):
    def both(self, data, *words):
        """What C and C++ print."""
        found = [run(program, data, *words) for program in PROGRAMS]
        self.assertEqual(found[0], found[1])
        return found[0]

    def expect_whole(self, data, name):
        self.assertEqual(self.both(data), (0, lines_of(records(data)[1]), ''), name)

    def expect_refusal(self, data, line, events_before=()):
        self.assertEqual(self.both(data), (2, list(events_before), line + '\n'))

    def expect_as_the_player(self, data):
        """The refusal of the player, with its event. Returns the status, the events before it and what the player
        writes for `flat`."""
        status, lines, said = self.both(data)
        done = subprocess.run([PLAYER, 'flat'], input=data, stdout=subprocess.PIPE, stderr=subprocess.PIPE, check=False)
        refused = done.stderr.decode().split('\n')[0]
        of_machine = re.match('psxgpu: (%s) at event ([0-9]+)' % '|'.join(OF_THE_MACHINE), refused)
        if of_machine:
            self.assertGreaterEqual(len(lines), int(of_machine[2]), data.hex())
            return None
        self.assertEqual((status, said), (done.returncode, refused + '\n' if refused else ''), data.hex())
        return status, lines, done.stdout

    def test_examples(self):
        for name, data in examples():
            self.expect_whole(data, name)

    def test_random_captures(self):
        r = random.Random(1)
        for _ in range(60):
            data = random_capture(r, KINDS)
            self.expect_whole(data, data.hex())
            self.expect_whole(data + b'more', data.hex())
            self.assertEqual(self.both(data, 'from memory'), self.both(data))

    @unittest.skipUnless(PLAYER, 'PLAYER names no program')
    def test_examples_that_are_cut(self):
        r = random.Random(2)
        for _, data in examples():
            for _ in range(6):
                self.expect_as_the_player(data[:r.randrange(min(len(data), 3000))])

    @unittest.skipUnless(PLAYER, 'PLAYER names no program')
    def test_damaged_captures(self):
        """The line of the player; of a capture without DMA, also the events before the fault."""
        r = random.Random(3)
        refused = 0
        for k in range(200):
            is_flat = k % 2 == 0
            data = damaged(r, random_capture(r, (GP0, GP1, READ, STAT, SKIP) if is_flat else KINDS))
            found = self.expect_as_the_player(data)
            if found is None or not is_flat:
                continue
            status, lines, flat = found
            refused += status == 2
            if flat and not any(int(line.split()[1]) in (RAM, DMA, BEGIN, TURN) for line in lines):
                whole = flat + bytes(4) if status else flat
                self.assertEqual(lines, lines_of(records(whole)[1]), data.hex())
        self.assertGreater(refused, 25)

    def test_refusals(self):
        words = b''.join(struct.pack('<I', word) for word in (2 << 24 | 3, 1, 2))
        self.expect_refusal(b'', 'psxgpu: truncated at event 1 byte 0')
        self.expect_refusal(b'PSXGPU', 'psxgpu: truncated at event 1 byte 6')
        self.expect_refusal(b'PSXGPUC4', 'psxgpu: not-capture at event 1 byte 7')
        self.expect_refusal(b'PSXGPUS1', 'psxgpu: not-capture at event 1 byte 6')
        self.expect_refusal(b'PSXGPUC1' + words + b'abc', 'psxgpu: truncated at event 3 byte 23',
                            ['1 2 00000001', '2 2 00000002'])
        self.expect_refusal(b'PSXGPUC1\1\0\0\7', 'psxgpu: bad-record at event 1 byte 8 word 07000001')
        self.expect_refusal(b'PSXGPUC1\1\0\0\5\1\0\0\1\2\0\0\0', 'psxgpu: bad-record at event 2 byte 16 word 00000002',
                            ['1 5'])
        self.expect_refusal(b'PSXGPUC1\2\0\0\1\xfc\xff\x1f\0', 'psxgpu: bad-record at event 1 byte 12 word 001ffffc')

    def test_longest_file(self):
        """A file that is longer than a player accepts: what is before that byte is given."""
        data = b'PSXGPUC1' + struct.pack('<I', 5 << 24 | 1) * (MOST // 4)
        self.assertEqual(run(SMALL, data), (2, ['%d 5' % k for k in range(1, MOST // 4 - 1)],
                                            'psxgpu: too-long at event %d byte %d\n' % (MOST // 4 - 1, MOST)))
        data = b'PSXGPUC1' + struct.pack('<I', 2 << 24 | MOST) + bytes(4 * MOST)
        self.assertEqual(run(SMALL, data)[::2], (2, 'psxgpu: too-long at event %d byte %d\n' % (MOST // 4 - 2, MOST)))
        whole = b'PSXGPUC1' + struct.pack('<I', 5 << 24 | 1) * (MOST // 4 - 3) + bytes(4)
        self.assertEqual((len(whole), run(SMALL, whole + b'more')[::2]), (MOST, (0, '')))

    def test_interrupted_reads(self):
        for name, data in examples():
            self.assertEqual(run(INTERRUPTED, data), run(PROGRAMS[0], data), name)

    def test_no_memory(self):
        self.assertEqual(run(POOR, b'PSXGPUC1'), (3, [], 'error %d\n' % errno.ENOMEM))

    def test_not_a_file(self):
        with open(os.path.join(FOLDER, 'out'), 'wb') as file:       # which cannot be read
            done = subprocess.run([PROGRAMS[0]], stdin=file, stderr=subprocess.PIPE, check=False)
        self.assertEqual((done.returncode, done.stderr), (3, b'error %d\n' % errno.EBADF))

