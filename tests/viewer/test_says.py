"""What the page says of packets, frames, reads and colours is what the program and the tools say.

    python3 -m tests.viewer.test_says
"""
import os
import re
import tempfile
import unittest

from tests import support
from tests.viewer.page import EXAMPLES, Page, program
from tests.viewer.recordings import BUSY, VALLEY, two_buffers, unpacked
from tests.viewer.screenshots import RIGHT, WRONG

from psxgpu.capture import (Capture, display_start, draw_mode, drawing_area, fill, load, rectangle, screen,
                            texture_window)


def example(name):
    """The bytes of an example."""
    with open(os.path.join(EXAMPLES, name), 'rb') as file:
        return file.read()


class Says(unittest.TestCase):
    @classmethod
    def setUpClass(cls):
        cls.page = cls.enterClassContext(Page())
        cls.folder = cls.enterClassContext(tempfile.TemporaryDirectory())

    def tearDown(self):
        self.page.evaluate('probe.viewer.compare.forget()')
        self.assertNotIn('A fault', self.page.evaluate('document.getElementById("said").textContent'))

    def load(self, data, name='a.capture'):
        self.assertEqual(self.page.load(data, name), True)

    def write(self, name, data):
        path = os.path.join(self.folder, name)
        with open(path, 'wb') as file:
            file.write(data)
        return path

    def tool(self, *words):
        """The lines of a tool."""
        done = support.run_tool(*words, cwd=self.folder)
        self.assertEqual(done.returncode, 0, done.stderr)
        return done.stdout.splitlines()

    def event(self, number):
        self.page.evaluate('probe.app.seek(probe.app.recording.track.stepsUpTo(%d), "packet")' % number)


class Packets(Says):
    """Texture window, dithering and flips."""

    def test_a_texture_window_and_dither(self):
        """The texcoords span 0 to 127, of which the window leaves 0 to 63."""
        data = unpacked(VALLEY)
        self.load(data)
        self.event(422352)
        told = '\n'.join(self.tool('packets', self.write('valley', data), '--events', '422352', '422352'))
        self.assertIn('window mask (192, 192) offset (0, 0)\n    dithered', told)
        said = self.page.text('#packet')
        for text in ('texture windowmask (192, 192), offset (0, 0)', 'ditherdithered', 'texelsu 0 to 63, v 0 to 63'):
            self.assertIn(text, said)
        self.page.press('4', '4')
        red = '''(x => { const { view } = probe.viewer.views, at = view.toScreen(x, 20);
            const pixels = view.canvas.getContext('2d').getImageData(at.x - 2, at.y, 5, 20).data;
            let count = 0;
            for (let k = 0; k < pixels.length; k += 4) count += pixels[k] > pixels[k + 1] + 40;
            return count; })(%d)'''
        self.assertGreaterEqual(self.page.evaluate(red % 64), 20, 'the edge of the texels')
        self.assertEqual(self.page.evaluate(red % 127), 0, 'nothing of the corners')

    def test_flips_of_a_rectangle(self):
        """Column 40 and those at its left are read, and rows 8 to 23."""
        out = Capture(2).gp1(screen(0, 0, 320, 240)).gp0(drawing_area(0, 0, 319, 239), draw_mode(0x0A, flip_x=True))
        out.gp0(rectangle(0x808080, 10, 10, 16, 16, texture=(40, 8)))
        self.load(out.bytes())
        self.page.press('End')
        self.assertIn('flipXtexelsu 25 to 40, v 8 to 23', self.page.text('#packet'))
        self.assertNotIn('dithered', self.page.text('#packet'))

    def test_a_window_and_a_flip(self):
        """Of columns 25 to 40 a mask of 8 leaves those without bit 3, with the offset: 24 to 31 and 40 become 24 .. 40."""
        out = Capture(2).gp1(screen(0, 0, 320, 240)).gp0(
            drawing_area(0, 0, 319, 239), draw_mode(0x0A, dither=True, flip_y=True), texture_window(4, 0, 4, 0),
            rectangle(0x808080, 10, 10, 16, 16, texture=(64, 40)))
        self.load(out.bytes())
        self.page.press('End')
        said = self.page.text('#packet')
        self.assertIn('texture windowmask (32, 0), offset (32, 0)', said)
        self.assertIn('texelsu 96 to 111, v 25 to 40', said)
        self.assertNotIn('dithered', said, 'rectangles are not dithered')


class Drawn(Says):
    """Who drew a cell, and where two recordings part."""

    def test_last_drawn_by_is_the_last_change(self):
        right = example('textured-frame.capture')
        wrong = right.replace(RIGHT, WRONG)
        ours, theirs = (program('vram', data=data)[0] for data in (wrong, right))
        self.load(wrong, 'wrong.capture')
        self.page.press('End')
        self.page.choose('#dump', self.write('right.bin', theirs))
        self.page.until('document.getElementById("compare").textContent.includes("last drawn by")')
        first = next(k for k in range(0, len(ours), 2) if ours[k:k + 2] != theirs[k:k + 2]) // 2
        lines = program('pixel', str(first % 1024), str(first // 1024), data=wrong)[0].decode().splitlines()
        said = self.page.text('#compare')
        found = {name: re.search(name + r' drawn byevent (\d+)\.\d+: (\w+) ([0-9a-f]{8})', said).groups()
                 for name in ('first', 'last')}
        self.assertEqual(found['first'], tuple(lines[0].split()[:3]))
        self.assertEqual(found['last'], tuple(lines[-1].split()[:3]))

    def second(self, data, name='second.capture'):
        self.page.choose('#dump', self.write(name, data))
        self.page.until('probe.viewer.compare.second.parting !== null')
        return self.page.text('#compare')

    def test_the_first_words_that_differ(self):
        right = example('textured-frame.capture')
        self.load(right.replace(RIGHT, WRONG), 'wrong.capture')
        said = self.second(right)
        self.assertIn('word 378400000 here, 78000000 therepalette(0, 481) here, (0, 480) there', said)
        self.assertNotIn('u, v', said)

    def test_an_inserted_packet(self):
        """A square of 30 by 30 in another place: 900 cells differ from it on, also at the end of each step."""
        extra = rectangle(0xFFFFFF, 700, 300, 30, 30)
        def recording(has):
            out = Capture(2).gp1(screen(0, 0, 320, 240)).gp0(drawing_area(0, 0, 1023, 511), fill(0, 0, 0, 320, 240))
            for k in range(12):
                out.gp0(rectangle(0x101010 * k + 0x20, 9 * k, 9 * k, 40, 40))
                if k == 5 and has:
                    out.gp0(extra)
            return out.gp1(display_start(0, 0)).bytes()
        self.load(recording(False), 'without')
        said = self.second(recording(True), 'with')
        lines = program('list', data=recording(True))[0].decode().splitlines()
        event = next(line.split()[0] for line in lines if ' 60ffffff ' in line)
        self.assertIn('first packethere nonethere %s rectangle 60ffffff' % event, said)
        self.page.press('End')
        counts = []
        for _ in range(9):
            counts.append(self.page.evaluate('probe.app.difference.count'))
            self.page.press('ArrowLeft')
        self.assertEqual(counts, [900] * 7 + [0] * 2)

    def test_a_status_read_is_no_difference(self):
        first = two_buffers(2)
        self.load(first)
        out = Capture(2).stat(3).bytes()[:-4] + first[8:]
        self.assertIn('all wordsare the same', self.second(out))


class Frames(Says):
    """Numbers and costs of frames."""

    def count(self):
        self.page.press('Home')
        self.page.press('End')
        return self.page.text('#frame').split(':')[0]

    def test_numbers_are_those_of_the_tools(self):
        for name, count in (('flips', 4), ('smear', 1), ('textured-frame', 2)):
            data = example(name + '.capture')
            self.load(data, name)
            self.assertEqual(self.count(), '%d of %d' % (count, count))
            self.assertIn('frames: %d' % count, self.tool('check', self.write(name, data)))
        self.load(Capture(2).gp1(0x03000000).bytes())
        self.assertEqual(self.count(), 'no frame')

    def test_costs_are_those_of_heat(self):
        for path in (VALLEY, BUSY):
            data = unpacked(path)
            self.load(data)
            self.page.until('probe.viewer.timeline.marks.costs.drawn.every(count => count >= 0)', 120)
            costs = self.page.evaluate('(({ packets, drawn, loaded }) => Array.from(packets, (count, frame) => '
                                       '[frame + 1, count, drawn[frame] + loaded[frame]]).slice(0, probe.app.frames))'
                                       '(probe.viewer.timeline.marks.costs)')
            lines = [line.split() for line in self.tool('heat', self.write('heated', data), '--flips')]
            self.assertEqual(costs, [[int(word) for word in line[:3]] for line in lines if line[0].isdigit()])

    def test_loads_are_apart(self):
        out = Capture(2).gp1(screen(0, 0, 320, 240)).gp0(drawing_area(0, 0, 319, 239), fill(0, 0, 0, 16, 4),
                                                        load(640, 0, 5, 4, [1] * 20), rectangle(255, 310, 0, 16, 3))
        self.load(out.bytes())
        self.page.press('End')
        self.assertEqual(self.page.text('#frame'), '2 of 2: 3 packets, 94 cells drawn, 20 loaded')


class Reads(Says):
    def test_words_that_were_read(self):
        """Beside each read there is what `play` writes for it."""
        for name in ('read-back', 'turns'):
            data = example(name + '.capture')
            self.load(data, name)
            told = program('play', data=data)[0].decode().splitlines()[:-1]
            said = []
            for row in range(self.page.evaluate('probe.app.recording.rows.length')):
                if self.page.evaluate('probe.app.recording.rows.kind[%d]' % row) >= 17:
                    self.page.evaluate('probe.app.seekRow(%d)' % row)
                    said += self.page.evaluate('[...document.querySelectorAll("#packet .words")]'
                                               '.map(at => at.textContent).join(" ")').split()
                    words = said[-1:]
                    self.assertTrue(not words or words[0] in self.page.text('#list'))
            self.assertEqual(said, told)


class Colours(Says):
    def test_24_bits(self):
        """The bytes of the picture, three a pixel."""
        cells = [0x2211, 0x4433, 0x6655, 0x8877]
        out = Capture(2).gp1(screen(0, 0, 320, 240)).gp1(0x08000011).gp0(load(0, 0, 4, 1, cells))
        data = out.gp1(display_start(0, 0)).bytes()
        shot = program('shot', data=data)[0].split(b'255\n', 1)[1]
        self.load(data)
        self.page.press('End')
        self.page.press('1', '1')
        for x, cell in ((0, 0), (1, 1)):
            r, g, b = shot[3 * x:3 * x + 3]
            self.assertEqual((r, g, b), ((0x11, 0x22, 0x33), (0x44, 0x55, 0x66))[x])
            self.page.evaluate('probe.viewer.views.line.point({ x: %d, y: 0 })' % x)
            self.assertIn('%02x%02x%02x  red %d, green %d, blue %d of 24 bits  cells (%d, 0) and (%d, 0)'
                          % (r, g, b, r, g, b, cell, cell + 1), self.page.text('#place'))
        self.page.evaluate('probe.viewer.views.pick({ x: 1, y: 0 })')
        self.assertIn('pixel(1, 0)colour 445566', self.page.text('#pixel'))

    def test_a_pixel_of_the_screen_over_both_buffers(self):
        self.load(two_buffers(4))
        self.page.press('End')
        self.page.press('1', '1')
        self.page.evaluate('probe.viewer.views.pick({ x: 30, y: 40 })')
        seen = []
        for _ in range(3):
            self.page.press('[', '[')
            seen.append(self.page.evaluate('[probe.app.cell.x, probe.app.cell.y, probe.app.registers[8] >>> 10]'))
        self.assertEqual({tuple(at) for at in seen}, {(30, 280, 240), (30, 40, 0)})
        self.page.evaluate('probe.app.choose({ x: 30, y: 40 })')
        self.page.press(']', ']')
        self.assertEqual(self.page.evaluate('[probe.app.cell.x, probe.app.cell.y]'), [30, 40], 'a cell of video memory')

    def test_the_texture_page_does_not_depend_on_the_route(self):
        self.load(example('tall.capture'), 'tall')
        pages = set()
        for route in (['End'], ['Home', 'End'], ['Home', 'ArrowRight', 'ArrowRight', 'End']):
            for key in [*route, '4']:
                self.page.press(key, key if len(key) == 1 else None)
            pages.add(self.page.evaluate('document.getElementById("page").placeholder'))
            self.page.press('1', '1')
        mode = self.page.evaluate('probe.app.registers[0]')
        self.assertEqual(pages, {'%d,%d' % ((mode & 15) * 64, (mode >> 4 & 1) * 256 + (mode >> 11 & 1) * 512)})
        self.assertEqual(pages, {'512,768'})


class Refusals(Says):
    """Beside the program's line there is what the file seems to be, and what to do."""

    def advice(self, data):
        line = self.page.load(data, 'bad')
        self.assertEqual(line, 'bad: ' + program('play', data=data)[1])
        said = self.page.text('#said .advice')
        self.page.evaluate('probe.app.say("")')
        return said

    def test_what_a_file_seems_to_be(self):
        for data, said in ((b'gp0 600000ff\nstat\n', 'a log of words: make a capture of it with psxgpu from-log'),
                           (b'Dear reader,\n' * 9, 'seems to be a text. Open a capture, a snapshot or a GPU dump'),
                           (b'\x89PNG\r\n\x1a\n' + bytes(99), 'seems to be a picture (PNG): compare it'),
                           (b'\xff\xd8\xff\xe0' + bytes(99), 'a picture (JPEG)'),
                           (bytes(64), 'begins with zeros: its copy may have been interrupted'),
                           (b'PSXGPUC9' + bytes(9), 'a capture of version 9, which is newer than this page'),
                           (b'PSXGPUS4' + bytes(9), 'a snapshot of version 4, which is newer'),
                           (b'PSXGPUX1' + bytes(9), 'its first eight bytes are damaged'),
                           (b'PS-X EXE' + bytes(99), 'a program for the console: record it'),
                           (bytes([200, 1, 7, 9] * 9), 'of no kind that this page knows'),
                           (b'', 'The file is empty')):
            self.assertIn(said, self.advice(data), data[:20])

    def test_damaged_recordings(self):
        data = example('textured-frame.capture')
        for bad, said in ((data[:-4], 'ends before its End record: copy it again, or complete it with psxgpu mend'),
                          (b'PSXGPUC1' + bytes.fromhex('01000007'), 'begins no record'),
                          (Capture(2).dma(2, 0, 0, 0x01000601).bytes(), 'a wrong CHCR')):
            self.assertIn(said, self.advice(bad))


if __name__ == '__main__':
    unittest.main()
