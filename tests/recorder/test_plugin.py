"""Tests of the plugin that records They need gcc, and neither an emulator nor a
screen."""
import os
import signal

from tests import support
from tests.recorder.emulated import Emulated
from tests.recorder.testing import LIST, Capture, event_list

setUpModule = support.needs('gcc')


class Plugin(Emulated):
    def test_ports_and_reads(self):
        files = self.emulate('gp0 e3000000; gp1 3000000; read; stat; frame 1; out 100 2; gp0 1', check=1)
        want = Capture(2).gp0(0xE3000000).gp1(0x03000000).read().stat().gp1(0x3F000001).read(2).gp0(1)
        self.assertEqual(files[''], want.bytes())
        self.assertEqual(files['.reads'], b'11110000\n14802000\n11110001\n11110002\n')
        self.assertEqual(self.said, '11110000\n14802000\n')
        self.assertEqual(len(files['.vram']), 1048576)
        self.assertEqual(files['.vram'][:8].hex(), '0000030006000900')
        self.assertIn('1 frames, %d bytes' % len(files['']), self.errors)

    LIST = ('ram 100 2000200; ram 104 60ffffff; ram 108 80008; ram 200 1ffffff; ram 204 40004; list 100;'
            'ram 300 e1000000; ram 304 e6000000; in 300 2; out 300 1; in 300 2')

    def test_flat(self):
        want = Capture(2).gp0(0x60FFFFFF, 0x80008, 0x40004, 0xE1000000, 0xE6000000).read().gp0(0x11110000, 0xE6000000)
        self.assertEqual(self.emulate(self.LIST), {'': want.bytes()})

    def test_ram(self):
        want = Capture(2).ram(0x100, 0x2000200, 0x60FFFFFF, 0x80008).ram(0x200, 0x1FFFFFF, 0x40004)
        want.dma(2, 0x100, 0, LIST)
        want.ram(0x300, 0xE1000000, 0xE6000000).dma(2, 0x300, 0x20001, 0x01000201).dma(2, 0x300, 0x10001, 0x01000200)
        want.ram(0x300, 0x11110000).dma(2, 0x300, 0x20001, 0x01000201)
        self.assertEqual(self.emulate(self.LIST, dma='ram'), {'': want.bytes()})

    def test_list_without_end(self):
        """It is recorded once around, as words."""
        script = 'ram 100 1000200; ram 104 5; ram 200 1000100; ram 204 6; list 100; list 100; gp1 1'
        for kind in ('ram', 'flat'):
            self.assertEqual(self.emulate(script, dma=kind), {'': Capture(2).gp0(5, 6, 5, 6).gp1(1).bytes()})

    def test_frames(self):
        files = self.emulate('gp0 1; frame 9; gp0 2', frames=3)
        self.assertEqual(files[''], Capture(2).gp0(1).gp1(0x3F000001, 0x3F000002, 0x3F000003).bytes())
        self.assertEqual(self.said, 'ended\n')

    def test_polls(self):
        files = self.emulate('stat; stat; stat; gp0 1; stat; stat', polls=2, check=1)
        self.assertEqual(files[''], Capture(2).stat(2).gp0(1).stat(2).bytes())
        self.assertEqual(files['.reads'].count(b'\n'), 4)

    def test_key_and_signal(self):
        """F11 ends the recording, the signal begins the next part."""
        files = self.emulate('gp0 1; key ffc8; gp0 2; frame 1; gp0 3; signal a; frame 1; gp0 4; frame 1')
        self.assertEqual(sorted(files), ['', '.2'])
        self.assertEqual(files[''], Capture(2).gp0(1, 2).gp1(0x3F000001).bytes())
        want = self.state([0] * 6, []).gp0(4).gp1(0x3F000001).bytes()
        self.assertEqual(event_list(files['.2']), event_list(want))

    def test_waits_for_the_key(self):
        files = self.emulate('gp0 1; frame 5; key ffc8; frame 1; gp0 4; frame 1', frames=1, **{'from': 'key'})
        want = self.state([0] * 6, []).gp0(4).gp1(0x3F000001).bytes()
        self.assertEqual(event_list(files['']), event_list(want))
        self.assertEqual(self.said, 'ended\n')

    def test_something_stays_open(self):
        """A recording begins where nothing is open, and else says at the end what was."""
        for script, said in (('gp0 a0000000; gp0 0; gp0 40004; gp0 1', 'a load is open: 7 data words are missing'),
                             ('gp0 48000000; gp0 1; gp0 2', 'a polyline 48000000 is open: its end word is missing'),
                             ('gp0 20000000; gp0 1', 'a packet 20000000 is open: it has 2 of 4 words'),
                             ('gp0 c0000000; gp0 1; gp0 30003; read', 'a store is open: 4 reads are missing')):
            with self.subTest(said):
                self.assertEqual(self.emulate(script + '; frame 3', **{'from': 2}), {})
                self.assertIn('psxgpu_record: failed: %s/a: not begun, since %s\n' % (self.folder, said), self.errors)
        files = self.emulate('gp0 20000000; frame 3; gp0 1; gp0 2; gp0 3; frame 1; stat; frame 1', **{'from': 2})
        self.assertEqual(event_list(files[''])[-2:], event_list(Capture(2).stat().gp1(0x3F000001).bytes()))

    def test_parts(self):
        """The state with which a part begins does not count."""
        files = self.emulate('many 1 80000; frame 1; gp0 2; frame 1; gp0 3', split=1)
        self.assertEqual(sorted(files), ['', '.2'])
        self.assertEqual(event_list(files['']), event_list(Capture(2).gp0([1] * 0x80000).gp1(0x3F000001).bytes()))
        want = self.state([0] * 6, []).gp0(2).gp1(0x3F000001).gp0(3)
        self.assertEqual(event_list(files['.2']), event_list(want.bytes()))

    def test_saved_state(self):
        files = self.emulate('gp0 e5000007; gp0 1; load')
        want = self.state([0x60A, 0, 0, 0, 7, 3], [k << 24 | 1 for k in (8, 6, 7, 5, 4, 3)])
        want.records[:0] = Capture(2).gp0(0xE5000007, 1).records
        self.assertEqual(event_list(files['']), event_list(want.bytes()))

    def test_terminated(self):
        files = self.emulate('gp0 1; signal f; gp0 2; frame 1; gp0 3')
        self.assertEqual(files[''], Capture(2).gp0(1, 2).gp1(0x3F000001).bytes())
        self.assertEqual(self.status, -signal.SIGTERM)

    def test_full_disk(self):
        files = self.emulate('many 1 80000; frame 1; gp0 2; frame 1', most=200000, frames=9)
        self.assertIn('psxgpu_record: failed: ', self.errors)
        self.assertIn('File too large', self.errors)
        self.assertEqual(self.said, 'ended\n')
        self.assertEqual(set(event_list(files[''])), {1})

    def test_full_disk_for_what_stands_beside(self):
        self.emulate('stat; frame 1', most=5000, check=1)
        self.assertIn('psxgpu_record: failed: %s/a.vram: File too large' % self.folder, self.errors)
        self.assertIn('psxgpu_record: %s/a: 1 frames, ' % self.folder, self.errors)

    def test_no_file(self):
        """The emulator is ended if it would record this many frames and no more. Otherwise it continues."""
        for frames, said in ((0, '11110000\n'), (9, 'ended\n')):
            self.emulate('gp0 1; frame 1; read', capture='/nowhere/a', frames=frames)
            self.assertIn('psxgpu_record: failed: /nowhere/a: No such file or directory', self.errors)
            self.assertEqual(self.said, said)

    def test_no_plugin_that_draws(self):
        self.emulate('gp0 1', plugin='/nowhere/draws.so')
        self.assertIn('no plugin that draws: /nowhere/draws.so', self.errors)
        self.emulate('gp0 1', plugin=os.path.join(self.built, 'nullspu.so'))
        self.assertIn('nullspu.so is no GPU plugin: it has no GPUinit', self.errors)
