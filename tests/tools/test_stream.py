"""Captures read as a stream, cut and joined."""
import io
import unittest

from tests import support
from psxgpu import capture as c
from psxgpu.command import ToolError
from psxgpu.stream import Stream, encode, first_events, later_events


def stream(data, **settings):
    return Stream(io.BytesIO(data), 'it', **settings)


def events(data):
    return list(c.events(c.records(data)[1]))


class Streams(unittest.TestCase):
    def test_singles_are_joined(self):
        capture = c.Capture().gp0(1)
        for word in range(2, 40000):
            capture.gp0(word)
        capture.gp0(1, 2).gp0(3).read(2)
        found = [(kind, words.tolist()) for kind, _, words in stream(capture.bytes())]
        self.assertLess(len(found), 12)
        self.assertEqual(sum((words for _, words in found), []), list(range(1, 40000)) + [1, 2, 3])
        self.assertEqual(len(list(stream(capture.bytes(), exact=True))), 40002)

    def test_runs_of_every_length(self):
        for n in list(range(1, 40)) + [255, 256, 257, 1023, 4096]:
            capture = c.Capture()
            for word in range(n):
                capture.gp0(word)
            capture.stat().gp0(n)
            self.assertEqual([words.tolist() for _, _, words in stream(capture.bytes())], [list(range(n)), [], [n]])

    def test_broken(self):
        whole = c.Capture().gp0(1, 2, 3).bytes()
        for n in range(8, len(whole)):
            self.assertRaisesRegex(ToolError, 'it: cut at byte %d,' % n, list, stream(whole[:n]))
        self.assertRaisesRegex(ToolError, 'empty', stream, b'')
        self.assertRaisesRegex(ToolError, 'gzip', stream, b'\x1f\x8b' + bytes(20))
        self.assertRaisesRegex(ToolError, 'a snapshot', stream, b'PSXGPUS1' + bytes(20))
        for record, place in ((encode(7, 2, [0] * 3), 8), (encode(2, 0), 8), (encode(6, 3), 8), (encode(10, 1), 8),
                              (encode(1, 1, [2, 0]), 12), (encode(1, 2, [0x1FFFFC, 0, 0]), 12)):
            self.assertRaisesRegex(ToolError, 'it: byte %d: ' % place, list, stream(b'PSXGPUC1' + record + bytes(40)))

    def test_beginning_and_rest(self):
        from examples.make import EXAMPLES
        for make in EXAMPLES.values():
            data = make().bytes()
            whole = events(data)
            for n in {0, 1, 5, len(whole) // 2, len(whole)} - {k for k in range(6) if k > len(whole)}:
                parts = [[(kind, count, words.tolist()) for kind, count, words in part(stream(data), n)]
                         for part in (first_events, later_events)]
                self.assertEqual(list(c.events(parts[0])), whole[:n])
                self.assertEqual(list(c.events(parts[1])), whole[n:])


class Joined(support.InFolder):
    def test_first_and_join(self):
        source = support.example('turns')
        for name, words in (('begin', ['7']), ('rest', ['7', '--rest'])):
            done = support.run_tool('first', *words, source, self.path(name))
            self.assertEqual((done.returncode, done.stderr), (0, ''))
        done = support.run_tool('join', self.path('begin'), self.path('rest'), '-o', self.path('whole'))
        self.assertEqual((done.returncode, done.stderr), (0, ''))
        with open(source, 'rb') as file:
            self.assertEqual(events(self.read('whole')), events(file.read()))

    def test_versions(self):
        paths = [self.write(str(version), c.Capture(version).stat().bytes()) for version in (1, 2, 3)]
        done = support.run_tool('join', *paths[:2], text=False)
        self.assertEqual((done.stdout[:8], len(events(done.stdout))), (b'PSXGPUC2', 2))
        self.assertEqual(support.run_tool('join', *paths).returncode, 2)

    def test_too_few_events(self):
        done = support.run_tool('first', '20', self.write('one', c.Capture().stat().bytes()), self.path('out'))
        self.assertEqual((done.returncode, done.stderr), (2, 'psxgpu first: %s: it has 1 event\n' % self.path('one')))
