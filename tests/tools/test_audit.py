"""Tests of psxgpu audit They need no player: small ones of fills, loads and
stores stand below."""
import contextlib
import io
import os
import sys
import tempfile
import unittest

from psxgpu.__main__ import main
from psxgpu.players import audit
from psxgpu import capture as c
from psxgpu.players import probes
from psxgpu.viewing.template import found

# A player of fills, loads and stores. So many rows of a fill it forgets, and so much it adds to the colour.
PLAYER = '''#!%s
import sys
from psxgpu.capture import records
command, cells, event, reads = sys.argv[1], {}, 0, []
words = [(kind, w) for kind, n, ws in records(sys.stdin.buffer.read())[1] for w in (ws or [0] * n)]
k = 0

def box(a, b):
    return a & 1023, a >> 16, b & 0xFFFF, b >> 16

while k < len(words):
    kind, word = words[k]
    if kind == 4:
        if command == 'play':
            print('%%08x' %% (reads.pop(0) if reads else 0))
        k += 1
    elif kind == 2 and word >> 24 in (2, 0xA0, 0xC0):
        x, y, w, h = box(words[k + 1][1], words[k + 2][1])
        name, n = {2: ('fill', 0), 0xA0: ('load', (w * h + 1) // 2), 0xC0: ('store', 0)}[word >> 24]
        if command == 'list':
            print(k + 3, name, '%%08x' %% word, x, y, x + w - 1, y + h - 1)
        places = [(x + i, y + j) for j in range(h - (%d if name == 'fill' else 0)) for i in range(w)]
        if name == 'fill':
            cells.update((place, (word >> 3 & 31) + %d & 31) for place in places)
        elif name == 'load':
            data = [half for kind, w in words[k + 3:k + 3 + n] for half in (w & 0xFFFF, w >> 16)]
            cells.update(zip(places, data))
        else:
            out = [cells.get(place, 0) for place in places] + [0]
            reads = [out[i] | out[i + 1] << 16 for i in range(0, len(places), 2)]
        k += 3 + n
    else:
        if command == 'list' and kind == 2:
            print(k + 1, 'environment', '%%08x' %% word, '-')
        k += 1
if command == 'vram':
    dump = bytearray(1 << 20)
    for (x, y), cell in cells.items():
        dump[2048 * y + 2 * x:2048 * y + 2 * x + 2] = cell.to_bytes(2, 'little')
    sys.stdout.buffer.write(dump)
'''

FILLS_DECIDED = '    decided by: psx-spx (MACHINE.md, Fills: corner and size are rounded, cut, and wrap)'


class Audits(unittest.TestCase):
    def setUp(self):
        folder = tempfile.TemporaryDirectory()
        self.addCleanup(folder.cleanup)
        self.folder = folder.name
        self.right = self.player('right', 0, 0)
        self.brighter = self.player('brighter', 0, 1)
        self.shorter = self.player('shorter', 1, 0)
        for name, line in (('silent', 'cat > /dev/null'), ('failing', 'cat > /dev/null; exit 3')):
            self.program(name, '#!/bin/sh\n%s\n' % line)

    def program(self, name, text):
        path = os.path.join(self.folder, name)
        with open(path, 'w') as file:
            file.write(text)
        os.chmod(path, 0o755)
        return path

    def player(self, name, rows, step):
        return self.program(name, PLAYER % (sys.executable, rows, step))

    def audit(self, capture, theirs, *more):
        """The status, and the lines after the head of the table."""
        path = os.path.join(self.folder, 'a.capture')
        capture.save(path)
        out = io.StringIO()
        with contextlib.redirect_stdout(out):
            status = main(['audit', path, self.right, theirs, *more])
        return status, out.getvalue().splitlines()[2:]

    def fills(self):
        """Two fills, the second in part over the first; a load, and a store of the program's own between them."""
        capture = c.Capture(2).gp0(c.fill(0xF8, 16, 8, 16, 4)).gp0(c.store(16, 8, 2, 2)).read(2)
        return capture.gp0(c.load(64, 8, 2, 2, [1, 2, 3, 4])).gp0(c.fill(0x80, 16, 10, 32, 4)).gp1(0x3F000001)

    def test_equal(self):
        status, lines = self.audit(self.fills(), self.right)
        self.assertEqual((status, lines), (0, ['| fill | 2 | 2 | 192 | 0 | 0 |', '| load | 1 | 1 | 4 | 0 | 0 |']))

    def test_one_step(self):
        """The first fill's 31 becomes 0, the second's 16 becomes 17; the load is not touched by it."""
        status, lines = self.audit(self.fills(), self.brighter)
        self.assertEqual(status, 1)
        self.assertEqual(lines, ['| fill | 2 | 0 | 192 | 192 | 64 |', '| load | 1 | 1 | 4 | 0 | 0 |',
                                 'fill: event 3 020000f8: 64 cells, first (16, 8): ours 001f, theirs 0000',
                                 FILLS_DECIDED])

    def test_differences_do_not_add_up(self):
        """A row too few in each: the second fill's last row is another one than the first's."""
        _, lines = self.audit(self.fills(), self.shorter)
        self.assertEqual(lines[0], '| fill | 2 | 0 | 192 | 48 | 48 |')
        self.assertEqual(lines[2], 'fill: event 3 020000f8: 16 cells, first (16, 11): ours 001f, theirs 0000')

    def test_reduced(self):
        """The smallest capture of the class that differs, and the page. A row too few is there in one of 16 cells."""
        folder = os.path.join(self.folder, 'small')
        status, lines = self.audit(self.fills(), self.shorter, '--reduce', folder)
        self.assertEqual((status, lines[-1]), (1, '1 class reduced: %s' % os.path.join(folder, 'index.html')))
        pages = ['fill.html'] if found() else []
        self.assertEqual(sorted(os.listdir(folder)), sorted(['.psxgpu-output', 'fill.capture', 'fill.log', 'fill.png',
                                                             'fill.py', 'index.html', *pages]))
        with open(os.path.join(folder, 'fill.capture'), 'rb') as file:
            (kind, _, words), = c.records(file.read())[1]
        self.assertEqual((kind, words[1:]), (c.GP0, [0, 0x00010001]))

    def test_several_runs(self):
        """However many packets a run judges, the table is the same."""
        want = self.audit(self.fills(), self.shorter)
        words, audit.WORDS = audit.WORDS, 1
        try:
            self.assertEqual(self.audit(self.fills(), self.shorter), want)
        finally:
            audit.WORDS = words

    def test_part(self):
        _, lines = self.audit(self.fills(), self.brighter, '--first', '4')
        self.assertEqual(lines[0], '| fill | 1 | 0 | 128 | 128 | 0 |')
        _, lines = self.audit(self.fills(), self.brighter, '--last', '3')
        self.assertEqual(lines, ['| fill | 1 | 0 | 64 | 64 | 64 |',
                                 'fill: event 3 020000f8: 64 cells, first (16, 8): ours 001f, theirs 0000',
                                 FILLS_DECIDED])

    def refusal(self, capture, theirs='right', path=None):
        errors = io.StringIO()
        with contextlib.redirect_stderr(errors):
            if path:
                self.assertEqual(main(['audit', path, self.right, self.right]), 2)
            else:
                self.assertEqual(self.audit(capture, os.path.join(self.folder, theirs))[0], 2)
        return errors.getvalue()

    def test_no_packet(self):
        """An audit that judges nothing is not green."""
        for words in (['--first', '100'], ['--first', '9', '--last', '3'], ['--last', '2']):
            errors = io.StringIO()
            with contextlib.redirect_stderr(errors):
                self.assertEqual(self.audit(self.fills(), self.right, *words), (2, []))
            self.assertIn('a.capture: no packet to judge from event', errors.getvalue())

    def test_foreign_player(self):
        """What is not a list of packets is refused in one line."""
        self.right = self.program('talks', '#!/bin/sh\ncat > /dev/null; echo one two\n')
        self.assertIn('talks: our player writes 0 words of eight digits', self.refusal(self.fills(), 'talks'))

    def test_refusals(self):
        self.assertIn('not flat', self.refusal(c.Capture(2).ram(0, 1)))
        self.assertIn('tall profile', self.refusal(c.Capture(3).gp0(1)))
        self.assertIn('No such file', self.refusal(self.fills(), 'nobody'))
        self.assertIn('writes 0 words', self.refusal(self.fills(), 'silent'))
        self.assertIn('status 3', self.refusal(self.fills(), 'failing'))
        self.assertIn('No such file', self.refusal(None, path='/nowhere/a.capture'))
        path = os.path.join(self.folder, 'no.capture')
        for data in (b'no capture', b'PSXGPUC2\1'):
            with open(path, 'wb') as file:
                file.write(data)
            self.assertIn('psxgpu audit: %s: ' % path, self.refusal(None, path=path))


class Listings(unittest.TestCase):
    def test_polyline_is_one(self):
        listing = b'3 line 48000000 1 2 3 4\n4 line 48000000 -\n5 line 48000000 0 3 2 9\n6 finish 55555555 -\n' \
                  b'7 environment e6000003 -\n8 rectangle 60000000 5 5 6 6\n'
        self.assertEqual(list(probes.packets(listing)), [
            (6, 'polyline', 0x48000000, (0, 2, 3, 9), 0), (7, 'environment', 0xE6000003, None, 3),
            (8, 'rectangle', 0x60000000, (5, 5, 6, 6), 3)])

    def test_boxes(self):
        self.assertEqual(probes.seen_box('polygon', [1, 1, 1022, 511]), (0, 0, 1023, 511))
        self.assertEqual(probes.seen_box('polygon', [10, 10, 11, 11]), (8, 8, 13, 13))
        self.assertEqual(probes.seen_box('fill', [16, 0, 31, 600]), (16, 0, 31, 511))

    def test_classes(self):
        for name, word, want in (('polygon', 0x3E, 'quad shaded textured semi'),
                                 ('polygon', 0x25, 'triangle textured raw'),
                                 ('polygon', 0x21, 'triangle'), ('rectangle', 0x7D, 'rectangle textured raw'),
                                 ('line', 0x52, 'line shaded semi'), ('load', 0xA0, 'load')):
            self.assertEqual(audit.class_of(name, word << 24), want)
