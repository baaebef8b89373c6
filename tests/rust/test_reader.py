"""The crate's reader against the reader of psxgpu_capture.h and the events of psxgpu.capture: the same events, and the
same refusals."""
import os
import random
import shutil
import subprocess
import tempfile
import unittest

from psxgpu.capture import records
from tests import support
from tests.recorder import test_reader
from tests.recorder.test_header import LANGUAGES, SANE, STRICT
from tests.recorder.test_reader import KINDS, damaged, examples, lines_of, random_capture
from tests.recorder.testing import HERE, RECORDER
from tests.rust.support import driver, needs_driver


def setUpModule():
    needs_driver()
    support.needs('gcc')()
    global FOLDER, IN_C
    FOLDER = tempfile.mkdtemp()
    IN_C = os.path.join(FOLDER, 'reader')
    source = os.path.join(HERE, 'test_reader.c')
    subprocess.run(LANGUAGES['c'] + STRICT + SANE + ['-I', RECORDER, source, '-o', IN_C], check=True)


def tearDownModule():
    shutil.rmtree(FOLDER)


def read(data):
    """Status, lines and first line of error of the crate's reader."""
    status, out, error = driver('records', data=data)
    return status, out.decode().splitlines(), error


def read_in_c(data):
    """The same of the reader in C."""
    status, lines, error = test_reader.run(IN_C, data)
    return status, lines, error.rstrip('\n')


class Reader(unittest.TestCase):
    def test_examples_and_what_is_cut_off(self):
        r = random.Random(4)
        for name, data in examples():
            with self.subTest(name=name):
                self.assertEqual(read(data + b'more'), (0, lines_of(records(data)[1]), ''))
                for _ in range(6):
                    part = data[:r.randrange(min(len(data), 3000))]
                    self.assertEqual(read(part), read_in_c(part))

    def test_random_and_damaged_captures(self):
        r = random.Random(5)
        refused = 0
        for _ in range(200):
            whole = random_capture(r, KINDS)
            self.assertEqual(read(whole), (0, lines_of(records(whole)[1]), ''), whole.hex())
            data = damaged(r, whole)
            found = read(data)
            self.assertEqual(found, read_in_c(data), data.hex())
            refused += found[0] == 2
        self.assertGreater(refused, 50)

    def test_refusals(self):
        """Of each refusal, one by hand."""
        for data, lines, line in (
                (b'', [], 'truncated at event 1 byte 0'), (b'XYZ', [], 'truncated at event 1 byte 3'),
                (b'PSXGPUS1', [], 'not-capture at event 1 byte 6'), (b'PSXGPUC4', [], 'not-capture at event 1 byte 7'),
                (b'PSXGPUC2\2\0\0\2abcdef', ['1 2 64636261'], 'truncated at event 2 byte 18'),
                (b'PSXGPUC1\1\0\0\7', [], 'bad-record at event 1 byte 8 word 07000001'),
                (b'PSXGPUC2\1\0\0\5\1\0\0\1\2\0\0\0', ['1 5'], 'bad-record at event 2 byte 16 word 00000002'),
                (b'PSXGPUC2\2\0\0\1\xfc\xff\x1f\0', [], 'bad-record at event 1 byte 12 word 001ffffc'),
                (b'PSXGPUC3\xff\xff\xff\2', [], 'truncated at event 1 byte 12')):
            self.assertEqual(read(data), (2, lines, 'psxgpu: ' + line))


if __name__ == '__main__':
    unittest.main()
