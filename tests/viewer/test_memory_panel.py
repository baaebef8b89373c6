"""Video memory over time: python3 -m tests.viewer.test_memory_panel, after `make web`."""
from tests.viewer.page import program
from tests.viewer.reader import Reader
from tests.viewer.recordings import VALLEY, unpacked

from psxgpu.capture import Capture, display_start, draw_mode, drawing_area, fill, load, rectangle, screen

TEXTS = '[...document.querySelectorAll("#uploads .row:not([hidden])")].map(row => row.title)'


def used():
    """Loads in the order of their fates: a texture that is used twice and then overwritten by one that nothing uses, a CLUT
    that stays, and one that a fill overwrites unused. Then a square covers a picture that was loaded and is shown."""
    out = Capture(2).gp1(screen(0, 0, 320, 240)).gp0(drawing_area(0, 0, 319, 239), draw_mode(0x0A))
    out.gp0(load(640, 0, 64, 64, [0x1111] * 4096), load(0, 480, 16, 1, [0x7FFF] * 16), load(800, 100, 8, 8, [1] * 64))
    for x in (0, 100):
        out.gp0(rectangle(0x808080, x, 0, 16, 16, texture=(0, 0), palette=0x7800))
    out.gp0(fill(0, 800, 96, 16, 16), load(640, 0, 64, 64, [0] * 4096), load(32, 32, 8, 8, [5] * 64))
    return out.gp1(display_start(0, 0)).gp0(rectangle(0xFF, 32, 32, 16, 16)).bytes()


class Memory(Reader):
    def setUp(self):
        super().setUp()
        self.page.evaluate('document.getElementById("memory-box").open = true')

    def tearDown(self):
        self.page.evaluate('document.getElementById("memory-box").open = false')
        self.page.set('#uploads-of', 'all')
        super().tearDown()

    def load(self, data):
        self.assertEqual(self.page.load(data), True)
        self.page.until('probe.viewer.memory.usage.isDone', 120)

    def events(self, data):
        """The events of loads, fills and rectangles, as `list` has them."""
        lines = [line.split() for line in program('list', data=data)[0].decode().splitlines()]
        return {name: [line[0] for line in lines if line[1] == name] for name in ('load', 'fill', 'rectangle')}

    def test_each_load(self):
        data = used()
        self.load(data)
        at = self.events(data)
        loads, (one, two, square) = at['load'], at['rectangle']
        flip = self.page.evaluate('(({ recording }) => module_address.rowAddress(recording, '
                                  '[...recording.rows.kind].lastIndexOf(16)))(probe.app)')
        twice = '2 times, first at event %s, last at event %s.' % (one, two)
        self.assertEqual(self.page.evaluate(TEXTS), [
            'Event %s, load: 64 × 64 at (640, 0). Use: 4 bits, %s Overwritten at event %s.' % (loads[0], twice, loads[3]),
            'Event %s, load: 16 × 1 at (0, 480). Use: CLUT, %s It stays to the end.' % (loads[1], twice),
            'Event %s, load: 8 × 8 at (800, 100). Nothing uses it. Overwritten at event %s, unused.' % (loads[2], at['fill'][0]),
            'Event %s, load: 64 × 64 at (640, 0). Nothing uses it. It stays to the end.' % loads[3],
            'Event %s, load: 8 × 8 at (32, 32). Use: shown, 1 time, first at event %s, last at event %s. '
            'Overwritten at event %s.' % (loads[4], flip, flip, square)])
        self.assertEqual(self.page.text('#uploads-said'), 'loads and copies: 5, 2 unused')

    def test_what_is_listed(self):
        self.load(used())
        for what, count in (('unused', 2), ('textures', 1), ('CLUTs', 1), ('all', 5)):
            self.page.set('#uploads-of', what)
            self.assertEqual(len(self.page.evaluate(TEXTS)), count, what)

    def test_free_regions(self):
        """By tiles of 16 cells: the picture is (0, 0) to (319, 239), the palette is in the tile (0, 480), texels are in the
        column 640 down to row 31, and the fill ends with row 111. The largest box is right of the picture and below the fill:
        44 by 25 tiles. That below the picture, right of the palette, has 63 by 17."""
        self.load(used())
        said = self.page.evaluate('[...document.querySelectorAll("#free-said button")].map(at => at.textContent)')
        self.assertEqual(said[0], '704 × 400 at (320, 112)')
        self.page.evaluate('document.querySelector("#free-said button").click()')
        self.assertEqual(self.page.evaluate('[probe.viewer.views.name, probe.viewer.views.view.middle()]'),
                         ['memory', {'x': 672, 'y': 312}])

    def test_a_click_goes_to_the_load(self):
        data = used()
        self.load(data)
        self.page.evaluate('document.querySelectorAll("#uploads .row")[1].click()')
        self.assertEqual(self.page.evaluate('probe.app.recording.rows.kind[probe.app.row]'), 5)
        self.page.evaluate('document.querySelectorAll("#upload-said button")[1].click()')
        self.assertEqual(self.page.evaluate('document.getElementById("event").value'), self.events(data)['rectangle'][1])

    def test_the_valley(self):
        """It has 34 loads. The four of its first state fill video memory; all of it is used."""
        data = unpacked(VALLEY)
        self.load(data)
        self.assertEqual(self.page.text('#uploads-said'), 'loads and copies: 34, 0 unused')
        self.assertEqual(len(self.events(data)['load']), 34)
