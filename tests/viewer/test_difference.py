"""A difference as a picture: python3 -m tests.viewer.test_difference, after `make web`."""
import os

from tests import support
from tests.viewer.page import program
from tests.viewer.reader import Reader
from tests.viewer.recordings import covered

from psxgpu.capture import Capture, display_start, drawing_area, rectangle, screen

# The pixel of the view's image at a cell of video memory.
PIXEL = '[...probe.viewer.views.view.source.getContext("2d").getImageData(%d, %d, 1, 1).data].slice(0, 3)'
BUTTON = '[...document.querySelectorAll("#compare button")].find(({ textContent }) => textContent === "%s").click()'
# Cells, and what is changed in each: a step of red, sixteen of green, and bit 15.
CHANGES = (((150, 140), 0x0001), ((151, 140), 0x0200), ((152, 140), 0x8000))


class Pictures(Reader):
    def setUp(self):
        super().setUp()
        self.page.press('End')
        self.page.press('3', '3')

    def tearDown(self):
        self.page.evaluate('probe.viewer.compare.forget()')
        super().tearDown()

    def write(self, name, data):
        path = os.path.join(self.folder, name)
        with open(path, 'wb') as file:
            file.write(data)
        return path

    def changed(self):
        """Compares with video memory in which three cells are changed. Returns the files of both."""
        ours = program('vram', data=self.data)[0]
        theirs = bytearray(ours)
        for (x, y), bits in CHANGES:
            at = 2 * (1024 * y + x)
            theirs[at] ^= bits & 255
            theirs[at + 1] ^= bits >> 8
        paths = self.write('ours.bin', ours), self.write('theirs.bin', theirs)
        self.page.choose('#dump', paths[1])
        self.page.until('document.getElementById("compare").textContent.includes("their box")')
        return paths

    def tool(self, *words):
        return support.run_tool('compare', *words, cwd=self.folder).stdout

    def test_the_size_of_the_step(self):
        ours, theirs = self.changed()
        self.assertIn('by stepsbit 15: 1, 1: 1, 16 to 31: 1', self.page.text('#compare'))
        self.assertIn('by steps: bit 15: 1, 1: 1, 16 to 31: 1', self.tool(ours, theirs))
        self.page.set('#compare select', 'steps')
        self.assertEqual([self.page.evaluate(PIXEL % at) for at, _ in CHANGES],
                         [[24, 40, 120], [255, 255, 255], [190, 90, 255]])
        red, green, blue = self.page.evaluate(PIXEL % (160, 140))
        self.assertTrue(red == green == blue < 60, 'what is the same is dark')
        self.page.set('#compare select', '')
        self.assertEqual(self.page.evaluate(PIXEL % (150, 140)), [255, 77, 109], 'as usual: bright')

    def test_tolerance(self):
        ours, theirs = self.changed()
        for tolerance, count in ((1, 2), (16, 1), (0, 3)):
            self.page.set('#compare input[type=number]', str(tolerance))
            self.assertIn('differ%d cell' % count, self.page.text('#compare'))
            self.assertIn('cells that differ: %d' % count, self.tool(ours, theirs, '--tolerance', str(tolerance)))

    def test_swap_and_blink(self):
        self.changed()
        self.page.set('#compare select', 'plain')
        plain, (x, y) = self.page.ask('viewSum'), CHANGES[1][0]
        own = self.page.evaluate(PIXEL % (x, y))
        self.page.evaluate(BUTTON % 'Swap')
        self.assertNotEqual(self.page.evaluate(PIXEL % (x, y)), own)
        self.assertIn('theirs.bin in place of textured-frame.capture', self.page.text('#here'))
        self.page.evaluate(BUTTON % 'Swap')
        self.assertEqual(self.page.ask('viewSum'), plain)
        self.assertTrue(self.page.evaluate('document.getElementById("here").hidden'))
        self.page.evaluate('window.seen = new Set(); probe.app.on("compared", () => '
                           '{ window.seen.add(probe.app.comparing.isSwapped); })')
        self.page.evaluate(BUTTON % 'Blink')
        self.page.until('window.seen.size === 2')
        self.page.evaluate(BUTTON % 'Blink')
        self.page.evaluate('window.seen.clear()')
        self.page.evaluate('new Promise(go => setTimeout(go, 1500))')
        self.assertEqual(self.page.evaluate('window.seen.size'), 0, 'it is over')

    def test_swap_in_the_drawing_area(self):
        """The drawing area begins at (0, 0) here."""
        self.changed()
        self.page.set('#compare select', 'plain')
        self.page.press('2', '2')
        own = self.page.evaluate(PIXEL % CHANGES[1][0])
        self.page.evaluate(BUTTON % 'Swap')
        self.assertNotEqual(self.page.evaluate(PIXEL % CHANGES[1][0]), own)

    def test_overdraw_on_both_sides(self):
        """The second recording lacks one of three squares: (30, 30) is drawn 4 and 2 times."""
        self.assertEqual(self.page.load(covered(), 'covered'), True)
        out = Capture(2).gp1(screen(0, 0, 320, 240)).gp0(drawing_area(0, 0, 319, 239))
        for at in (8, 16):
            out.gp0(rectangle(0x0000FF, at, at, 40, 40))
        self.page.choose('#dump', self.write('two.capture', out.gp1(display_start(0, 0)).bytes()))
        self.page.until('probe.viewer.compare.second.parting !== null')
        self.page.press('End')
        self.page.press('3', '3')
        toggle = ('[...document.querySelectorAll("#overlays label")].find(({ textContent }) => '
                  'textContent === "overdraw").click()')
        self.page.evaluate(toggle)
        other = 'module_pixels.rgbaOf(module_overdraw.cellsOfCounts([%d])[0])'
        there = self.page.evaluate('[...new Uint32Array(probe.viewer.views.side.view.image.data.buffer.slice('
                                   '4 * (30 * 1024 + 30), 4 * (30 * 1024 + 31)))][0]')
        here = self.page.evaluate('[...new Uint32Array(probe.viewer.views.view.image.data.buffer.slice('
                                  '4 * (30 * 1024 + 30), 4 * (30 * 1024 + 31)))][0]')
        self.assertEqual([here, there], [self.page.evaluate(other % count) for count in (4, 2)])
        self.page.evaluate(toggle)
