"""The suite in the crate is the suite of `psxgpu conform`."""
import struct
import unittest

from psxgpu.commands.conform import every_test
from psxgpu.conformance.released import SUITE
from rust import pack_suite
from tests.rust.support import driver, needs_driver
from tests.support import needs_player


def total(values):
    """The sum of values, each times its place."""
    return sum(place * value for place, value in enumerate(values, 1))


def row_of(test):
    """What the driver prints of a test."""
    wanted = test.draft.picture
    picture = 'none' if test.draft.wants_no_picture else '-'
    if wanted:
        picture = '%dx%d:%d' % (wanted.width, wanted.height, total(wanted.pixels))
    cells = sum((1024 * y + x + 1) * value for (x, y), value in test.draft.cells.items())
    ignored = sum(1024 * y + x + 1 for x, y in test.draft.ignored)
    words = ' '.join('%08x/%08x' % (one.word, one.mask) for one in test.draft.words)
    return '\t'.join((test.full_name, test.says, test.section, test.decides, str(test.rows), str(total(test.data)),
                      str(cells), str(ignored), words, picture))


class Packed(unittest.TestCase):
    @needs_player
    def test_it_is_up_to_date(self):
        """If it is not: python3 -m rust.pack_suite."""
        with open(pack_suite.OUT, 'rb') as file:
            data = file.read()
        self.assertEqual(data, pack_suite.packed())
        self.assertLess(len(data), 300000)

    def test_what_the_crate_reads(self):
        needs_driver()
        status, out, error = driver('suite')
        self.assertEqual((status, error), (0, ''))
        version, *rows = out.decode().splitlines()
        self.assertEqual(version, str(SUITE))
        self.assertEqual(rows, [row_of(test) for test in every_test()])

    def test_blocks(self):
        """Blocks of LZ4 by hand: literals alone, a match that runs into itself, and lengths of several bytes."""
        self.assertEqual(pack_suite.compressed(b'abc'), b'\x30abc')
        self.assertEqual(pack_suite.compressed(b'ab' * 20 + b'cdefg'),
                         b'\x2fab\x02\x00' + bytes([38 - 19]) + b'\x50cdefg')
        self.assertEqual(pack_suite.compressed(bytes(range(256)))[:3], b'\xf0' + struct.pack('<B', 241) + b'\0')


if __name__ == '__main__':
    unittest.main()
