"""Captures made from text logs."""
import io

from tests import support
from psxgpu import capture as c
from psxgpu.log import Bad, from_log
from psxgpu.stream import HEADS


def made(lines):
    """The bytes of a capture of these lines."""
    records = io.BytesIO()
    log = from_log(lines, records)
    return HEADS[log.needs] + records.getvalue() + bytes(4)


class Logs(support.InFolder):
    def test_every_line(self):
        log = ['# a frame', 'gp0 e407ffff 20ffffff', 'GP0 0', 'gp1 08000001  # mode', 'read 2', 'stat', 'gp0 1',
               'ram 100 ffffff 2', 'dma 2 100 0 1000401', 'begin 100 0 1000401', 'turn', 'skip 3', '']
        self.assertEqual(c.records(made(log)),
                         (2, [(2, 3, [0xE407FFFF, 0x20FFFFFF, 0]), (3, 1, [0x08000001]), (4, 2, []), (5, 1, []),
                              (2, 1, [1]), (1, 2, [0x100, 0xFFFFFF, 2]), (6, 2, [0x100, 0, 0x1000401]),
                              (7, 2, [0x100, 0, 0x1000401]), (8, 1, []), (9, 3, [])]))

    def test_version(self):
        self.assertEqual(made(['stat'])[:8], b'PSXGPUC1')
        self.assertEqual(made(['turn', 'version 3'])[:8], b'PSXGPUC3')

    def test_state(self):
        """A log that begins in the middle begins as `start_from` does."""
        for rows, version in ((512, 1), (1024, 3)):
            dump = bytes(range(256)) * (8 * rows)
            log = ['vram ' + self.write('dump', dump), 'settings 1 2 3 4 5 3', 'display 08000001 03000000', 'stat']
            want = c.Capture(version).start_from(dump, [1, 2, 3, 4, 5, 3], [0x08000001, 0x03000000]).stat()
            self.assertEqual(list(c.events(c.records(made(log))[1])), list(c.events(c.records(want.bytes())[1])))
            self.assertEqual(c.records(made(log))[0], version)

    def test_bad_lines(self):
        for line, reason in (('gp0', 'expected `gp0 WORD ..`'), ('gp0 x', 'x is not a hexadecimal number'),
                             ('gp0 100000000', '100000000 is not a number of 32 bits'), ('gp1 1 2', 'expected `gp1 WORD`'),
                             ('ram 1 0', 'ram address: 1'), ('dma 3 0 0 0', 'dma channel: 3'),
                             ('write 1', '`write` names no event'), ('read -1', '-1 is not a number'),
                             ('settings 1 2', 'expected `settings'), ('read a', 'a is not a decimal number')):
            with self.assertRaises(Bad) as caught:
                made(['stat', line])
            self.assertTrue(str(caught.exception).startswith('line 2: %s' % reason), caught.exception)
            self.assertTrue(str(caught.exception).endswith(': ' + line), caught.exception)

    def test_script(self):
        done = support.run_tool('from-log', input='stat\nread 0x\n')
        self.assertEqual((done.returncode, done.stdout), (2, ''))
        self.assertEqual(done.stderr, 'psxgpu from-log: standard input: line 2: 0x is not a decimal number: read 0x\n')
        done = support.run_tool('from-log', self.write('log', b'stat\n\xff\n'))
        self.assertIn('line 2 is not text', done.stderr)
        done = support.run_tool('from-log', self.write('log', 'stat\n'), self.path('out'))
        self.assertEqual((done.returncode, self.read('out')), (0, c.Capture().stat().bytes()))

    def test_many_words_are_one_record(self):
        self.assertEqual(len(c.records(made(['gp0 1'] * 1000))[1]), 1)
