#!/usr/bin/env python3
"""Tests of .ci/harness/faults.py: python3 .ci/harness/test_faults.py. They need no player and no gcc."""
import os
import shutil
import unittest

HERE = os.path.dirname(os.path.abspath(__file__))

from fault_judges import (as_it_was, full_disk, without_error, without_memory, without_read,
                          without_write)
from faults import event_of, rooms, start_of, trials, words_of


class Ran:
    """A run that is told what it did."""

    def __init__(self, status, out=b'', err=b'', **calls):
        self.status, self.out, self.err = status, out, err
        self.calls = dict({'memory': 0, 'read': 0, 'write': 0, 'error': 0}, **calls)


WAS = Ran(0, b'ab', b'', memory=2, read=1, write=2)
READ = b'psxgpu: read-fault at event 1 byte 0\n'
WRITE = b'psxgpu: write-fault at event 1\n'
MEMORY = b'psxgpu: memory\n'


class Judges(unittest.TestCase):
    def judged(self, judge, good, bad):
        for now in good:
            self.assertEqual(judge(WAS, now), '')
        for now in bad:
            self.assertNotEqual(judge(WAS, now), '')

    def test_memory(self):
        self.judged(without_memory, [Ran(5, err=MEMORY), Ran(0, b'ab', memory=3)],
                    [Ran(5, b'a', MEMORY), Ran(5, err=MEMORY, read=1), Ran(5), Ran(0, b'ab'), Ran(0, b'a', memory=3)])

    def test_read(self):
        self.judged(without_read, [Ran(3, err=READ), Ran(3, b'a', READ)],
                    [Ran(3, b'b', READ), Ran(2, err=READ), Ran(0, b'ab')])

    def test_write(self):
        self.judged(without_write, [Ran(4, err=WRITE), Ran(4, b'a', WRITE)],
                    [Ran(4, b'ab', WRITE), Ran(4, b'b', WRITE), Ran(0, b'ab')])

    def test_others(self):
        self.judged(without_error, [Ran(0, b'ab', b'x')], [Ran(4, b'ab'), Ran(0, b'a')])
        self.judged(as_it_was, [Ran(0, b'ab')], [Ran(0, b'ab', b'x'), Ran(0, b'a')])

    def test_full_disk(self):
        two = WRITE.replace(b'1', b'2')
        for now, room, event, good in ((Ran(4, b'a', two), 1, 2, True), (Ran(4, b'a', two), 1, None, True),
                                       (Ran(4, b'a', two), 1, 1, False), (Ran(4, b'', two), 1, 2, False),
                                       (Ran(4, b'ab', two), 1, 2, False), (Ran(0, b'a'), 1, 2, False)):
            self.assertEqual(full_disk(WAS, now, room, event) == '', good)

    def test_places(self):
        self.assertEqual(rooms(0), [])
        self.assertEqual(rooms(3), [0, 1, 2])
        many = rooms(1000)
        self.assertTrue(len(many) == 48 and many[0] == 0 and many[-1] < 1000)
        due = event_of(Ran(0, b'3 load a0000000 -\n12 fill 02000000 -\n'), ['player'], 'list', '')
        self.assertEqual([due(place) for place in (0, 16, 17, 18, 36)], [3, 3, 3, 12, 12])

    def test_each_call_is_tried(self):
        self.assertEqual([it[:2] for it in trials(WAS)],
                         [('memory', 1), ('memory', 2), ('read', 1), ('write', 1), ('write', 2), ('short', 0),
                          ('signal', 0)])


class Words(unittest.TestCase):
    def test_start(self):
        for player, start in ((__file__, [os.path.abspath(__file__)]),
                              ('true -L "a b" c', [shutil.which('true'), '-L', 'a b', 'c']),
                              ('./none', [os.path.abspath('none')])):
            self.assertEqual(start_of(player), start)

    def test_words(self):
        here = os.path.abspath(__file__)
        self.assertEqual(words_of(['p', here]), ('p', [here], ['play']))
        self.assertEqual(words_of(['p', here, '--', 'cut 2', 'vram']), ('p', [here], ['cut 2', 'vram']))
        for bad in ([], ['p'], ['p', '--'], ['p', here + '.not']):
            self.assertIsNone(words_of(bad))


if __name__ == '__main__':
    unittest.main()
