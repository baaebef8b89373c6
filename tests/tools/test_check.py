"""Reports on captures."""
import json

from tests import support
from psxgpu import capture as c


@support.needs_player
class Checked(support.InFolder):
    def report(self, capture):
        path = capture if isinstance(capture, str) else self.write('capture', capture)
        done = support.run_tool('check', path)
        self.assertEqual(done.stderr, '')
        return done.returncode, done.stdout.splitlines()

    def test_examples(self):
        self.assertEqual(self.report(support.example('two-fills')),
                         (0, ['version: 1', 'events: 12: 6 Gp0, 6 Gp1', 'frames: 2',
                              'packets: fills and words that do nothing 2', 'not finished: nothing',
                              'slim leaves out: 0 of 12 events']))

    def test_standard_input(self):
        with open(support.example('two-fills'), 'rb') as file:
            done = support.run_tool('check', '-', stdin=file)
        self.assertEqual((done.returncode, done.stdout.splitlines()[0]), (0, 'version: 1'))

    def test_unfinished(self):
        for words, line in (([0x20000000, 1], 'a packet: polygon 20000000, 2 of 4 words'),
                            ([0xA0000000, 0x30002, 0x30003, 1],
                             'a load of 3 by 3 cells at (2, 3): 4 data words are missing'),
                            ([0x48000000, 0, 1], 'a polyline 48000000: its end word is missing'),
                            ([0x58000000, 0, 1, 2, 3], 'a polyline 58000000: its end word is missing')):
            status, lines = self.report(c.Capture().gp0(words).bytes())
            self.assertEqual((status, lines[4]), (1, 'not finished: ' + line))
        status, lines = self.report(c.Capture().gp0(c.store(5, 6, 3, 3)).read(2).bytes())
        self.assertEqual((status, lines[4]),
                         (1, 'not finished: a store of 3 by 3 cells at (5, 6): it waits for 3 reads'))

    def test_transfers(self):
        status, lines = self.report(c.Capture(2).begin(0x1000, 0x00020004, c.BLOCKS_IN).turn().bytes())
        self.assertEqual((status, lines[4]), (1, 'not finished: a transfer of DMA: 4 words left at 001010'))
        status, lines = self.report(c.Capture(2).begin(0x1000, 0, c.LIST).bytes())
        self.assertEqual((status, lines[4]), (1, 'not finished: a linked list of DMA: the next node is at 001000'))

    def test_refused(self):
        status, lines = self.report(support.example('list-loop'))
        self.assertEqual(status, 1)
        self.assertEqual(lines[3:5], ['refused: psxgpu: list-loop at event 8 node 001100',
                                      'what follows is of the 7 events before'])
        whole = c.Capture().gp0(c.fill(1, 0, 0, 16, 1)).stat().bytes()
        status, lines = self.report(whole[:-4])
        self.assertEqual((status, lines[3], lines[5:7]),
                         (1, 'refused: psxgpu: truncated at event 5 byte 28',
                          ['packets: fills and words that do nothing 1', 'not finished: nothing']))

    def test_slim(self):
        capture = c.Capture().gp0(c.drawing_area(0, 0, 99, 99), c.rectangle(1, 4, 4, 2, 2), c.fill(0, 0, 0, 16, 8))
        self.assertEqual(self.report(capture.bytes())[1][-1], 'slim leaves out: 3 of 8 events')
        self.assertEqual(self.report(support.example('turns'))[1][-1],
                         'slim leaves out: 0 of 20 events of the flat capture')

    def test_several(self):
        """Each has its name; an error of one does not end the others."""
        self.write('a', c.Capture().gp0(0).bytes())
        self.write('b', c.Capture().gp0(0x20000000).bytes())
        done = support.run_tool('check', 'a', 'none', 'b', cwd=self.folder)
        self.assertEqual((done.returncode, done.stderr), (2, 'psxgpu check: none: No such file or directory\n'))
        self.assertEqual([line for line in done.stdout.splitlines() if line.endswith(':')], ['a:', 'b:'])
        done = support.run_tool('check', 'a', 'b', '--json', cwd=self.folder)
        found = json.loads(done.stdout)
        self.assertEqual((done.returncode, [it['capture'] for it in found]), (1, ['a', 'b']))
        self.assertEqual([bool(it['unfinished']) for it in found], [False, True])
