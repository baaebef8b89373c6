"""The table of frames: python3 -m tests.viewer.test_frame_table, after `make web`."""
from tests.viewer.reader import Reader

from psxgpu.capture import Capture, display_start, draw_mode, drawing_area, fill, load, polygon, rectangle, screen

CELLS = '[...document.querySelectorAll("#%s .row:not([hidden])")].map(row => [...row.children].map(at => at.textContent))'
ROWS, PACKETS = CELLS % 'frame-list', CELLS % 'dearest'


def costly():
    """Frames of known costs. The second: a fill of 64 by 4, a load of 5 by 4, a square of 10 that is cut to 10 by 5 by the
    drawing area. The third: a textured square of 8, a blended one of 16, and one that is both, of 4."""
    out = Capture(2).gp1(screen(0, 0, 320, 240)).gp0(drawing_area(0, 0, 319, 239))
    out.gp0(fill(0, 0, 0, 64, 4), load(640, 0, 5, 4, [1] * 20), rectangle(255, 100, 235, 10, 10)).gp1(display_start(0, 0))
    out.gp0(draw_mode(0x0A), rectangle(0x808080, 0, 0, 8, 8, texture=(0, 0)), rectangle(0x808080, 20, 20, 16, 16, semi=True))
    return out.gp0(rectangle(0x808080, 40, 40, 4, 4, texture=(0, 0), semi=True)).gp1(display_start(0, 0)).bytes()


class Table(Reader):
    def setUp(self):
        super().setUp()
        self.page.evaluate('document.getElementById("frames-box").open = true')

    def tearDown(self):
        self.page.evaluate('document.getElementById("frames-box").open = false')
        super().tearDown()

    def load(self, data):
        self.assertEqual(self.page.load(data), True)
        self.page.until('probe.viewer.timeline.marks.costs.texels.every(count => count >= 0)')
        self.page.until('!(%s).flat().includes("…")' % ROWS)

    def sort(self, name):
        self.page.evaluate('[...document.querySelectorAll("#frame-heads .head")]'
                           '.find(({ textContent }) => textContent.startsWith(%r)).click()' % name)
        return self.page.evaluate(ROWS)

    def test_costs(self):
        self.load(costly())
        self.assertEqual(self.page.evaluate(ROWS), [
            ['1', '0', '0', '0', '0', '0'], ['2', '3', '306', '0', '0', '20'], ['3', '3', '336', '80', '272', '0']])
        self.assertEqual([row[0] for row in self.sort('loaded')], ['2', '1', '3'])
        self.assertEqual([row[0] for row in self.sort('blended')], ['3', '1', '2'])
        self.assertEqual([row[0] for row in self.sort('blended')], ['1', '2', '3'], 'the other way')
        self.sort('frame')

    def test_a_frame_and_its_dearest_packets(self):
        self.load(costly())
        self.page.evaluate('document.querySelectorAll("#frame-list .row")[2].click()')
        self.page.until('document.querySelector("#dearest-said").textContent.startsWith("frame 3: 3 packets")')
        self.assertEqual(self.at, self.page.evaluate('probe.app.starts[2] + 1'))
        self.assertEqual([(cells, name) for cells, _, name, _ in self.page.evaluate(PACKETS)],
                         [('256', 'rectangle'), ('64', 'rectangle'), ('16', 'rectangle')])
        event = self.page.evaluate(PACKETS)[1][1]
        self.page.evaluate('document.querySelectorAll("#dearest .row")[1].click()')
        self.assertEqual(self.page.evaluate('document.getElementById("event").value'), event)
        self.page.press('End')
        self.page.evaluate('document.querySelectorAll("#frame-list .row")[1].click()')
        self.page.until('document.querySelector("#dearest-said").textContent.startsWith("frame 2: 3 packets")')
        self.assertEqual([cells for cells, *_ in self.page.evaluate(PACKETS)], ['256', '50', '20'])

    def test_a_quad_counts_both_triangles(self):
        """Of two triangles of a quad none covers a cell of the other here: 20 by 10."""
        out = Capture(2).gp1(screen(0, 0, 320, 240)).gp0(drawing_area(0, 0, 319, 239))
        self.load(out.gp0(polygon([(0, 0), (20, 0), (0, 10), (20, 10)], 255)).bytes())
        self.assertEqual(self.page.evaluate(ROWS)[-1][:3], ['2', '1', '200'])

    def test_the_sum_of_the_packets_is_that_of_the_frame(self):
        self.load(self.data)
        frame = self.page.evaluate('probe.app.frames - 1')
        told = self.page.evaluate('(({ costs }) => [[...costs.packetsOf(%d)].reduce((sum, { cells }) => sum + cells, 0), '
                                  'costs.drawn[%d] + costs.loaded[%d]])(probe.viewer.timeline.marks)' % ((frame,) * 3))
        self.assertEqual(told[0], told[1])

    def test_no_number_is_cut(self):
        self.load(self.data)
        for width in (1024, 1400):
            self.page.size(width, 800)
            cut = self.page.evaluate('[...document.querySelectorAll("#frame-list .row:not([hidden]) .cost")]'
                                     '.filter(at => at.scrollWidth > at.clientWidth).length')
            self.assertEqual(cut, 0)
        self.page.size(1400, 860)
