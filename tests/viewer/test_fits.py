"""Nothing is cut, panels become wider, and what is done is told: python3 -m tests.viewer.test_fits, after `make web`."""
import base64
import io

from tests.viewer.page import program
from tests.viewer.reader import Reader

from psxgpu.capture import Capture, draw_mode, drawing_area, load, polygon, screen
from psxgpu.dumps.export import About, Export
from psxgpu.stream import Stream

# The texts of the rows of the list that are cut.
CUT = '''[...document.querySelectorAll("#list .row:not([hidden]) .rest, #list .row:not([hidden]) .name")]
    .filter(at => at.scrollWidth > at.clientWidth + 1
        || at.getBoundingClientRect().top > at.parentElement.getBoundingClientRect().top + 21)
    .map(at => at.textContent)'''
BUTTON = '[...document.querySelectorAll("%s button")].find(({ textContent }) => textContent.startsWith("%s"))'


def longest():
    """Rows with the longest texts."""
    square = [(0, 0), (300, 0), (0, 200), (300, 200)]
    out = Capture(2).gp1(screen(0, 0, 320, 240)).gp1(0x0800003D).gp0(drawing_area(0, 0, 1023, 511))
    out.gp0(0xE2000318, 0xE1000200, polygon(square, [0x808080] * 4, [(0, 0)] * 4, page=0x10A, semi=True))
    return out.gp0(load(640, 0, 4, 1, [0] * 4), draw_mode(0x0A)).bytes()


class Fits(Reader):
    def tearDown(self):
        self.page.size(1400, 860)
        self.page.evaluate('probe.app.say("")')
        super().tearDown()

    def test_no_text_of_the_list_is_cut(self):
        self.assertEqual(self.page.load(longest()), True)
        for width in (1024, 1280, 1400):
            self.page.size(width, 800)
            self.assertEqual(self.page.evaluate(CUT), [], width)
            texts = self.page.evaluate('[...document.querySelectorAll("#list .rest")].map(at => at.textContent).join("|")')
            for text in ('quad shaded textured semi', '24 bits PAL 2x interlaced', 'window (192, 192) at (0, 0)'):
                self.assertIn(text, texts)

    def test_an_area_is_shown_whole_or_not_at_all(self):
        self.page.evaluate('probe.app.seekRow(60)')
        for width in (1024, 1400):
            self.page.size(width, 800)
            part = self.page.evaluate('[...document.querySelectorAll("#list .row:not([hidden]) .area")].filter(at => {'
                                      'const [own, row] = [at, at.parentElement].map(it => it.getBoundingClientRect());'
                                      'return own.top < row.bottom - 2 && own.right > row.right + 1; }).length')
            self.assertEqual(part, 0)

    def test_panels_become_wider_and_stay_so(self):
        width = 'document.getElementById("left").offsetWidth'
        before = self.page.evaluate(width)
        self.page.evaluate('document.getElementById("split-left").focus()')
        self.page.press('ArrowRight')
        self.page.press('ArrowRight')
        self.assertEqual(self.page.evaluate(width), before + 32)
        self.assertEqual(self.page.evaluate('localStorage["valerianpane-left-width"]'), str(before + 32))
        x, y = self.page.evaluate('(({ x, y }) => [x + 2, y + 200])(document.getElementById("split-right")'
                                  '.getBoundingClientRect())')
        right = self.page.evaluate('document.getElementById("right").offsetWidth')
        for kind, at in (('mousePressed', x), ('mouseMoved', x - 50), ('mouseReleased', x - 50)):
            self.page.call('Input.dispatchMouseEvent', type=kind, x=at, y=y, button='left', buttons=1, clickCount=1)
        self.assertAlmostEqual(self.page.evaluate('document.getElementById("right").offsetWidth'), right + 50, delta=4)
        for side in ('left', 'right'):
            self.page.evaluate('document.getElementById("split-%s").dispatchEvent(new MouseEvent("dblclick"))' % side)
        self.assertEqual(self.page.evaluate(width), before)

    def test_the_search_goes_on_from_the_start(self):
        self.page.set('#query', 'line')
        count = self.page.evaluate('probe.viewer.list.found.length')
        self.page.evaluate('probe.app.seekRow(probe.viewer.list.found.at(-1))')
        self.page.click('#find')
        self.assertEqual(self.page.text('#found'), '1 of %d found, on from the start' % count)
        self.page.click('#find')
        self.assertEqual(self.page.text('#found'), '2 of %d found' % count)
        self.page.click('#find-back')
        self.page.click('#find-back')
        self.assertEqual(self.page.text('#found'), '%d of %d found, on from the end' % (count, count))
        self.page.set('#query', '')

    def test_a_cell_that_is_chosen_is_told(self):
        self.page.evaluate('new Promise(go => setTimeout(go, 400))')
        self.page.evaluate('document.getElementById("spoken").textContent = ""')
        self.page.press('End')
        self.page.press('3', '3')
        last = program('pixel', '512', '256', data=self.data)[0].decode().splitlines()
        self.page.until('document.getElementById("spoken").textContent.startsWith("event 2948")')
        self.page.evaluate('probe.app.choose({ x: 150, y: 140 })')
        lines = program('pixel', '150', '140', data=self.data)[0].decode().splitlines()
        self.page.until('document.getElementById("spoken").textContent.startsWith("cell (150, 140): changed")')
        said = self.page.text('#spoken')
        self.assertRegex(said, r'changed %d times?, last by event %s\.\d+, %s' % (len(lines), *lines[-1].split()[:2]))
        self.page.evaluate('document.getElementById("spoken").textContent = ""; probe.app.choose({ x: 512, y: 256 })')
        self.page.until('document.getElementById("spoken").textContent !== ""')
        self.assertEqual('nothing changed it' in self.page.text('#spoken'), not last)

    def test_the_legend_has_the_scale_of_heat(self):
        toggle = BUTTON.replace(' button', ' label') % ('#overlays', 'overdraw')
        self.page.evaluate(toggle + '.click()')
        self.page.press('End')
        self.page.press('3', '3')
        counts = self.page.evaluate('[...document.querySelectorAll("#legend .count")].map(at => at.textContent.trim())')
        self.assertEqual(counts, ['0', '1', '2', '3', '4', '6', '8', '12', '16 or more'])
        self.assertEqual(self.page.evaluate('[0, 1, 5, 16, 31].map(module_overdraw.rampColor)'),
                         [[0, 0, 0], [24, 40, 120], [200, 170, 45], [255, 255, 255], [255, 255, 255]])
        self.page.evaluate(toggle + '.click()')
        self.assertTrue(self.page.evaluate('document.getElementById("legend").hidden'))

    def test_palette_indices_fit(self):
        out = Capture(2).gp1(screen(0, 0, 320, 240)).gp0(drawing_area(0, 0, 319, 239))
        out.gp0(polygon([(0, 0), (9, 0), (0, 9)], 0x808080, [(0, 0)] * 3, page=0x08A, palette=0x7800))
        self.assertEqual(self.page.load(out.bytes()), True)
        self.page.press('4', '4')
        wide = self.page.evaluate('''[...document.querySelectorAll("#colors .color:not([hidden])")].filter(at => {
            const range = document.createRange();
            range.selectNodeContents(at);
            return range.getBoundingClientRect().width > at.clientWidth; }).length''')
        self.assertEqual(wide, 0)

    def drop(self, data, name):
        self.page.evaluate('''(() => {
            const bytes = Uint8Array.from(atob(%r), letter => letter.charCodeAt(0)), transfer = new DataTransfer();
            transfer.items.add(new File([bytes], %r));
            document.dispatchEvent(new DragEvent('drop', { dataTransfer: transfer, bubbles: true, cancelable: true }));
        })()''' % (base64.b64encode(data).decode(), name))
        self.page.until('document.title.startsWith(%r)' % name)

    def test_a_second_dropped_file_and_a_dump(self):
        stream = Stream(io.BytesIO(self.data), 'a')
        self.drop(b''.join(Export(stream, False, About())), 'b.psxgpu')
        self.page.until('document.getElementById("said").textContent !== ""')
        self.assertTrue(self.page.text('#file').startswith('b.psxgpu: GPU dump, '))
        self.assertIn('b.psxgpu (GPU dump) is open now in place of textured-frame.capture', self.page.text('#said'))
        self.page.evaluate((BUTTON % ('#said', 'Compare it with')) + '.click()')
        self.page.until('probe.viewer.compare.second.parting !== null')
        self.assertIn('textured-frame.capture', self.page.text('#compare'))
        self.page.evaluate('probe.viewer.compare.forget()')
        snapshot = program('cut', '9', data=self.data)[0]
        self.drop(snapshot, 'c.snapshot')
        self.assertTrue(self.page.text('#file').startswith('c.snapshot: snapshot, '))

    def test_forced_colours_keep_the_selection(self):
        self.page.evaluate('probe.app.seekRow(40)')
        self.page.call('Emulation.setEmulatedMedia', features=[{'name': 'forced-colors', 'value': 'active'}])
        ground = 'getComputedStyle(document.querySelector(%r)).backgroundColor'
        selected, other = (self.page.evaluate(ground % selector) for selector in (
            '#list .row[aria-selected=true]', '#list .row[aria-selected=false]'))
        self.assertNotEqual(selected, other)
        self.assertEqual(self.page.evaluate('getComputedStyle(document.querySelector(".swatch")).forcedColorAdjust'), 'none')
        self.page.call('Emulation.setEmulatedMedia', features=[])
