"""The first packet after which two players differ. Two small players that draw fills stand below."""
import sys

from tests import support
from psxgpu import capture as c

# A player of fills alone, in columns of sixteen cells; the second one forgets the last row of each.
PLAYER = '''
import struct, sys
from psxgpu.capture import records
m = bytearray(2 * 1024 * 512)
version, found = records(sys.stdin.buffer.read())
if version != 1:
    sys.exit('version %%d' %% version)
words = [w for kind, _, ws in found if kind == 2 for w in ws]
for k in range(0, len(words) // 3 * 3, 3):
    color, place, size = words[k:k + 3]
    for y in range((size >> 16) - %d):
        at = 2048 * ((place >> 16) + y) + 2 * (place & 0xffff)
        m[at:at + 2 * (size & 0xffff)] = struct.pack('<H', color >> 3 & 31) * (size & 0xffff)
sys.stdout.buffer.write(m)
'''

FILLS_DECIDED = 'decided by: psx-spx (MACHINE.md, Fills: corner and size are rounded, cut, and wrap)'


@support.needs_player
class Bisected(support.InFolder):
    def players(self):
        paths = [self.write('player%d.py' % rows, PLAYER % rows) for rows in (0, 1)]
        return ['%s %s' % (sys.executable, path) for path in paths]

    def bisect(self, capture, *words, players=None):
        path = self.write('capture', capture.bytes())
        done = support.run_tool('bisect', path, *(players or self.players()), *words)
        return done.returncode, done.stdout.splitlines(), done.stderr

    def test_first_packet(self):
        """Fills 1 and 2 have no rows; the third is whole with event 14, and bits of it are in the fields."""
        capture = c.Capture().stat()
        for k in range(4):
            capture.gp0(c.fill(0xF8, 32 * k, 0, 16, 0 if k < 2 else 1)).read(2)
        status, lines, err = self.bisect(capture)
        self.assertEqual((status, err), (1, ''))
        self.assertEqual(lines, ['they differ from here on, packet 3 of 4:', '14 fill 020000f8 64 0 79 0',
                                 '    corner (64, 0), size 16 by 1', '    colour 248 0 0', FILLS_DECIDED,
                                 'first differing cell: (64, 0): ours 001f, theirs 0000', 'cells that differ: 16',
                                 'their box: 64 0 79 0', 'by steps: 16 to 31: 16'])

    def test_dma_is_flattened(self):
        """The event is that of the DMA start, and both players get version 1."""
        capture = c.Capture(2)
        table = c.OrderingTable(capture, entries=2)
        table.clear()
        table.add(0, c.fill(0xF8, 32, 0, 16, 1))
        table.add(1, c.fill(0xF8, 0, 0, 16, 0))
        table.draw()
        capture.skip()
        status, lines, err = self.bisect(capture)
        self.assertEqual((status, err, lines[:2]), (1, '', ['they differ from here on, packet 2 of 2:',
                                                            '12 fill 020000f8 32 0 47 0']))

    def test_no_difference(self):
        capture = c.Capture().gp0(c.fill(0, 0, 0, 16, 1))
        self.assertEqual(self.bisect(capture), (0, ['no difference after 1 packet'], ''))

    def test_tolerance(self):
        capture = c.Capture().gp0(c.fill(0x10, 0, 0, 16, 1), c.fill(0x20, 32, 0, 16, 1))
        self.assertEqual(self.bisect(capture)[1][1], '3 fill 02000010 0 0 15 0')
        self.assertEqual(self.bisect(capture, '--tolerance', '2')[1][1], '6 fill 02000020 32 0 47 0')
        self.assertEqual(self.bisect(capture, '--tolerance', '4')[0], 0)

    def test_no_dump(self):
        status, lines, err = self.bisect(c.Capture().stat(), players=['cat > /dev/null #', 'cat > /dev/null #'])
        self.assertEqual((status, lines), (2, []))
        self.assertEqual(err, 'psxgpu bisect: cat > /dev/null #: no dump (status 0, 0 bytes)\n')

    def test_ignored(self):
        """A player that draws no lines, and one rectangle less. The line's cells come by a load."""
        ours = support.PLAYER + ' vram'
        theirs = self.write('theirs.py', '''
import subprocess, sys
from psxgpu.capture import Capture, records
from psxgpu.packets.split import Splitter
out = Capture()
for kind, count, words in records(sys.stdin.buffer.read())[1]:
    splitter = Splitter()
    for name, packet, _ in splitter.push(words):
        gone = name in ('line', 'finish') or name == 'rectangle' and packet[0] & 0xFF == 0xF2
        out.gp0([] if gone else words if name == 'load' else packet)
subprocess.run([%r, 'vram'], input=out.bytes(), check=True)
''' % support.PLAYER)
        capture = c.Capture().gp0(c.drawing_area(0, 0, 99, 99), c.mask_setting(keep=True),
                                  c.line([(0, 0), (50, 20), (3, 9)], 0xFF), c.rectangle(1, 4, 4, 2, 2),
                                  c.rectangle(0xF2, 60, 60, 2, 2))
        players = [ours, sys.executable + ' ' + theirs]
        self.assertEqual(self.bisect(capture, players=players)[1][1].split()[1], 'line')
        status, lines, err = self.bisect(capture, '--ignore', 'sloped', players=players)
        self.assertEqual((status, err, lines[1]), (1, '', '14 rectangle 600000f2 60 60 61 61'))
        self.assertEqual(self.bisect(capture, '--ignore', 'line', '--ignore', 'rectangle', players=players)[0], 0)
