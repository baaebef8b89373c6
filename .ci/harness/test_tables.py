#!/usr/bin/env python3
"""Tests of .ci/harness/tables.py: python3 .ci/harness/test_tables.py. They need no player."""
import os
import unittest
from unittest import mock

HERE = os.path.dirname(os.path.abspath(__file__))

import table_readers
import tables

# A number that is changed in a file, and the line that tells of it.
PLANTED = [
    ('codes', 'c/psxgpu.h', 'PSXGPU_OPEN = 15', 'PSXGPU_OPEN = 21', 'OPEN is 21, its source has 15'),
    ('codes', 'c/psxgpu.h', 'PSXGPU_NO_ROOM = 11,', '', 'NO_ROOM is None, its source has 11'),
    ('modes', 'c/psxgpu.h', 'PSXGPU_MODE_SHOT = 2', 'PSXGPU_MODE_SHOT = 22', '22 is shot, its source has None'),
    ('kinds of records', 'recorder/psxgpu_capture.h', 'PSXGPU_SKIP = 9', 'PSXGPU_SKIP = 8',
     '8 is SKIP, its source has TURN'),
    ('kinds of records', 'docs/CAPTURE.md', '| 8 | Turn |', '| 8 | Skip |', '8 is SKIP, its source has TURN'),
]


class Differences(unittest.TestCase):
    def test_rows(self):
        for source, copy, is_whole, lines in [
                ({1: 3}, {1: 3}, True, []),
                ({1: 3}, {1: 4}, True, ['1 is 4, its source has 3']),
                ({1: 3}, {}, True, ['1 is None, its source has 3']),
                ({1: 3}, {}, False, []),
                ({}, {2: 5}, False, ['2 is 5, its source has None'])]:
            self.assertEqual(list(tables.differences(source, copy, is_whole)), lines)


class Planted(unittest.TestCase):
    def test_each_is_found(self):
        with mock.patch.object(tables, 'program_lengths', lambda player: {}), \
                mock.patch.object(tables, 'program_tags', lambda player: {}):
            for title, path, old, new, line in PLANTED:
                with self.subTest(old):
                    self.assertIn(line, self.found(title, path, old, new))

    def found(self, title, path, old, new):
        """Returns the differences of a table if `old` is `new` in a file."""
        plain = table_readers.text_of

        def changed(name):
            text = plain(name)
            self.assertTrue(name != path or old in text)
            return text.replace(old, new) if name == path else text
        with mock.patch.object(table_readers, 'text_of', changed):
            copies, source = next((copies, source) for name, source, copies in tables.tables('') if name == title)
            return [line for copy in copies if copy.path == path
                    for line in tables.differences(source(), copy.read(), copy.is_whole)]


class Readers(unittest.TestCase):
    def test_names(self):
        self.assertEqual([table_readers.upper(name) for name in ('NotCapture', 'Open', 'BadDma')],
                         ['NOT_CAPTURE', 'OPEN', 'BAD_DMA'])

    def test_no_program(self):
        with self.assertRaises(table_readers.Absent):
            table_readers.output_of(['no-such-program'])


if __name__ == '__main__':
    unittest.main()
