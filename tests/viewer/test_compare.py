"""Comparing with a dump, and with a second recording side by side: python3 -m tests.viewer.test_compare, after `make web`."""
import os

from tests.viewer.page import program
from tests.viewer.reader import Reader
from tests.viewer.recordings import two_buffers

from psxgpu.capture import Capture, fill, screen


# Bytes of a machine: one more than the first time may be open at once.
MACHINE = 4.3e6


class Compare(Reader):
    def write(self, name, data):
        path = os.path.join(self.folder, name)
        with open(path, 'wb') as file:
            file.write(data)
        return path

    def tearDown(self):
        self.page.evaluate('probe.viewer.compare.forget()')
        super().tearDown()

    def told(self):
        return self.page.text('#compare')

    def test_one_cell_has_a_box_and_is_gone_to(self):
        with open(self.file, 'rb') as file:
            dump = bytearray(program('vram', data=file.read())[0])
        dump[2 * (1024 * 140 + 150)] ^= 1
        self.page.press('End')
        self.page.press('3', '3')
        self.page.choose('#dump', self.write('one.bin', dump))
        self.page.until('document.getElementById("compare").textContent.includes("1 cell")')
        at = self.page.evaluate('probe.viewer.views.view.toScreen(150.5, 140.5)')
        bright = '''(() => { const view = probe.viewer.views.view, { x, y } = view.toScreen(150.5, 140.5);
            const pixels = view.canvas.getContext('2d').getImageData(x - 12, y - 12, 24, 24).data;
            let count = 0;
            for (let k = 0; k < pixels.length; k += 4)
                count += pixels[k] > 220 && pixels[k + 1] < 110 && pixels[k + 2] > 220;
            return count; })()'''
        self.assertGreater(self.page.evaluate(bright), 30, at)
        self.page.evaluate('[...document.querySelectorAll("#compare button")]'
                           '.find(({ textContent }) => textContent === "Go to it").click()')
        view = self.page.evaluate('[probe.viewer.views.view.scale, probe.viewer.views.view.middle()]')
        self.assertEqual(view, [24, {'x': 150.5, 'y': 140.5}])

    def second(self, data, name='second.capture'):
        self.page.choose('#dump', self.write(name, data))
        self.page.until('probe.viewer.compare.second.parting !== null')

    def test_the_same_recording(self):
        with open(self.file, 'rb') as file:
            self.second(file.read())
        self.assertIn('all wordsare the same', self.told())

    def test_where_two_recordings_part(self):
        """The second square of the third frame has another colour."""
        first, other = two_buffers(6), bytearray(two_buffers(6))
        at = first.index(bytes.fromhex('02400060'))
        other[at + 1] = 0x48
        self.assertEqual(self.page.load(first, 'first.capture'), True)
        self.page.evaluate('probe.app.seek(probe.app.recording.length)')
        self.second(bytes(other))
        lines = program('list', data=first)[0].decode().splitlines()
        event = next(line.split()[0] for line in lines if line.split()[2] == '60004002')
        told = self.told()
        self.assertIn('word 160004002 here, 60004802 therecolour#024000 here, #024800 there', told)
        self.assertIn('first wordshere %s rectangle 60004002there %s rectangle 60004802' % (event, event), told)
        self.assertIn('first frame4', told)
        self.assertIn('first packethere %s rectangle' % event, told)

    def test_step_by_step(self):
        """A frame of the second has one packet more; both are at the same packet of the same frame."""
        first = two_buffers(4)
        extra = Capture(2).gp1(screen(0, 0, 320, 240)).gp0(fill(0, 512, 0, 16, 16), fill(0, 512, 0, 16, 16)).bytes()
        other = extra[:-4] + two_buffers(4)[8:]
        self.assertEqual(self.page.load(first, 'first.capture'), True)
        self.second(other)
        self.assertFalse(self.page.evaluate('document.getElementById("other").hidden'))
        places = []
        for _ in range(12):
            self.page.press('ArrowLeft')
            places.append(self.page.evaluate('[probe.app.at, probe.viewer.compare.second.second.at]'))
        self.assertEqual(len({there for _, there in places}), 12)
        self.page.press('End')
        self.assertEqual(self.page.evaluate('probe.app.difference.count'), 0)
        sums = self.page.evaluate('(async () => [await probe.sum(probe.app.cells), '
                                  'await probe.sum(probe.viewer.compare.second.second.cells)])()')
        self.assertEqual(sums[0], sums[1])
        self.page.evaluate('probe.viewer.views.view.lookAt(3, 10, 20)')
        self.assertEqual(self.page.evaluate('probe.viewer.views.side.view.scale'), 3)

    def test_leaving(self):
        self.second(two_buffers(2))
        before = self.page.ask('moduleBytes')
        for _ in range(10):
            self.page.evaluate('probe.viewer.compare.forget()')
            self.page.evaluate('probe.viewer.compare.second.parting = null')
            self.second(two_buffers(2))
        self.assertLessEqual(self.page.ask('moduleBytes') - before, MACHINE)
        self.page.evaluate('[...document.querySelectorAll("#compare button")]'
                           '.find(({ textContent }) => textContent === "Leave").click()')
        self.assertTrue(self.page.evaluate('document.getElementById("other").hidden'))

    def test_what_cannot_be_compared(self):
        for name, data, why in (('a.txt', b'nothing' * 20, 'neither a recording, nor a dump'),
                                ('a.xz', b'\xfd7zXZ\0' + bytes(60), 'unpack it first with xz -d')):
            self.page.choose('#dump', self.write(name, data))
            self.page.until('document.getElementById("compare").textContent.includes(%r)' % why)
