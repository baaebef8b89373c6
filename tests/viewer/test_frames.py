"""What is shown of whole frames and palettes: costs, wireframe, overdraw, the strip: python3 -m tests.viewer.test_frames, after
`make web`."""
import os
import time

from tests.viewer.reader import Reader
from tests.viewer.recordings import covered, palette_page, two_buffers

# Clicks the box of an overlay.
TOGGLE = '[...document.querySelectorAll("#overlays label")].find(({ textContent }) => textContent === "%s").click()'


class Frames(Reader):
    def load(self, data):
        self.assertEqual(self.page.load(data, 'made.capture'), True)

    def test_costs(self):
        """Each frame has a fill of 320 by 240 and three squares of 40 by 40. Before them the display is set: a frame."""
        self.load(two_buffers(3))
        self.page.until('probe.viewer.timeline.marks.costs.isCounted(4)')
        costs = self.page.evaluate('(({ packets, drawn, loaded }) => [[...packets], [...drawn], [...loaded]])'
                                   '(probe.viewer.timeline.marks.costs)')
        self.assertEqual(costs, [[0, 4, 4, 4, 0], [0, 81600, 81600, 81600, 0], [0] * 5])
        self.page.evaluate('probe.app.seek(probe.app.starts[2] + 1, "frame")')
        self.assertEqual(self.page.text('#frame'), '3 of 4: 4 packets, 81,600 cells drawn')

    def test_a_click_on_a_frame_goes_to_its_end(self):
        self.load(two_buffers(3))
        starts = self.page.evaluate('probe.app.starts')
        x, y = self.page.evaluate('''(() => { const box = probe.viewer.timeline.marks.canvas.getBoundingClientRect();
            const middle = (probe.app.starts[1] + probe.app.starts[2]) / 2 / probe.app.recording.length;
            return [box.x + 8 + middle * (box.width - 16), box.y + 10]; })()''')
        for kind in ('mouseMoved', 'mousePressed', 'mouseReleased'):
            self.page.call('Input.dispatchMouseEvent', type=kind, x=x, y=y, button='left', clickCount=1)
        self.assertEqual(self.at, starts[2] + 1)

    def test_wireframe(self):
        """Three squares have four edges each, with the drawing offset added."""
        self.load(two_buffers(2))
        self.page.evaluate('probe.app.seek(probe.app.starts[1] + 1, "frame")')
        lines = self.page.evaluate('probe.viewer.views.frame.lines()')
        self.assertEqual(len(lines), 12)
        plain = 'probe.sum(probe.viewer.views.view.canvas.getContext("2d").getImageData(0, 0, 500, 500).data)'
        self.page.press('1', '1')
        self.page.evaluate(TOGGLE % 'wireframe')
        self.assertEqual(self.page.evaluate('probe.viewer.views.name'), 'drawn')
        drawn = self.page.evaluate(plain)
        self.page.evaluate(TOGGLE % 'wireframe')
        self.assertNotEqual(self.page.evaluate(plain), drawn)
        self.assertEqual(lines[0], [{'x': 19.5, 'y': 269.5}, {'x': 59.5, 'y': 269.5}])

    def test_overdraw(self):
        self.load(covered())
        self.page.evaluate('probe.app.seek(probe.app.recording.length)')
        count = 'probe.viewer.views.frame.counts()[%d * 1024 + %d]'
        for at, times in ((10, 2), (20, 3), (30, 4), (2, 1), (50, 3), (60, 2), (100, 0)):
            self.assertEqual(self.page.evaluate(count % (at, at)), times, at)
        self.page.evaluate('probe.app.stepRows(-1); probe.app.stepRows(-1)')
        self.assertEqual(self.page.evaluate(count % (30, 30)), 3)

    def test_overdraw_as_a_picture(self):
        self.load(covered())
        self.page.press('3', '3')
        plain = self.page.ask('viewSum')
        self.page.evaluate(TOGGLE % 'overdraw')
        self.assertNotEqual(self.page.ask('viewSum'), plain)
        self.page.evaluate('probe.viewer.views.line.point({ x: 30, y: 30 })')
        self.assertIn('drawn 4 times in this frame', self.page.text('#place'))
        self.page.evaluate(TOGGLE % 'overdraw')
        self.assertEqual(self.page.ask('viewSum'), plain)

    def test_the_palette_as_a_strip(self):
        self.load(palette_page())
        self.page.press('ArrowLeft')
        self.page.press('4', '4')
        titles = self.page.evaluate('[...document.querySelectorAll("#colors .color:not([hidden])")]'
                                    '.map(({ title }) => title)')
        self.assertEqual(len(titles), 16)
        self.assertEqual(titles[0], 'index 0: 0000, not drawn')
        self.assertEqual(titles[5], 'index 5: 14a5')
        plain = self.page.ask('viewSum')
        self.page.evaluate('document.querySelectorAll("#colors .color")[5].click()')
        self.assertIn('index 5 has 1 texel of the page', self.page.text('#colors'))
        self.assertNotEqual(self.page.ask('viewSum'), plain)
        pixel = self.page.evaluate('[...probe.viewer.views.view.image.data.subarray(4 * 5, 4 * 6)]')
        self.assertEqual(pixel, [255, 64, 255, 255])
        self.page.evaluate('document.querySelectorAll("#colors .color")[5].click()')
        self.assertEqual(self.page.ask('viewSum'), plain)

    def test_the_texture_with_alpha(self):
        self.load(palette_page())
        self.page.press('ArrowLeft')
        alpha = self.page.evaluate('(({ app, views }) => { const how = views.choice.how(views.here); return [3, 7, 11].map('
                                   'at => module_pixels.pageWithAlpha(app.cells, how).data[at]); })(probe.viewer)')
        self.assertEqual(alpha, [0, 255, 255])
        self.page.call('Browser.setDownloadBehavior', behavior='allow', downloadPath=self.folder)
        self.page.evaluate('probe.viewer.out.does("texture")')
        path = os.path.join(self.folder, 'made-%s-texture-alpha.png' % self.page.evaluate('probe.viewer.out.place'))
        for _ in range(300):
            if os.path.exists(path):
                break
            time.sleep(0.02)
        with open(path, 'rb') as file:
            self.assertEqual(file.read()[24:26], bytes([8, 6]), 'eight bits with alpha')

    def test_vertices_with_the_offset(self):
        """The first square is written at (20, 30), and drawn 240 rows lower."""
        self.load(two_buffers(1))
        self.page.evaluate('probe.app.seekRow([...probe.app.recording.rows.kind].indexOf(3))')
        self.assertIn('(20, 30)(20, 270)', self.page.text('#packet'))
