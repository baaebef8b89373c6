"""Contrast, bars that stay where they are, what is kept, and fingers: python3 -m tests.viewer.test_looks, after `make web`."""

from tests.viewer.reader import Reader
from tests.viewer.recordings import two_buffers

# The contrast of two colours (WCAG 2.2), an element's text against the first ground below it that is not clear.
CONTRAST = '''(() => {
    const canvas = new OffscreenCanvas(1, 1), context = canvas.getContext('2d', { willReadFrequently: true });
    const rgba = css => {
        context.clearRect(0, 0, 1, 1); context.fillStyle = css; context.fillRect(0, 0, 1, 1);
        return [...context.getImageData(0, 0, 1, 1).data]; };
    const linear = v => v <= 0.04045 ? v / 12.92 : ((v + 0.055) / 1.055) ** 2.4;
    const light = ([r, g, b]) => [r, g, b].map(v => linear(v / 255))
        .reduce((sum, v, k) => sum + v * [0.2126, 0.7152, 0.0722][k], 0);
    const ground = at => { for (; at; at = at.parentElement) {
        const css = getComputedStyle(at).backgroundColor; if (rgba(css)[3] === 255) return css; } return '#fff'; };
    window.contrast = (at, name) => {
        const [a, b] = [getComputedStyle(at)[name], ground(name === 'color' ? at : at.parentElement)].map(rgba).map(light);
        return (Math.max(a, b) + 0.05) / (Math.min(a, b) + 0.05); };
})()'''


class Looks(Reader):
    def least(self, selector, name):
        """The least contrast of those elements that are seen."""
        return self.page.evaluate('Math.min(...[...document.querySelectorAll("%s")].filter(at => at.offsetWidth && '
                                  '!at.closest(".menu, dialog, #colors")).map(at => contrast(at, "%s")))' % (selector, name))

    def test_contrast(self):
        self.page.evaluate(CONTRAST)
        self.page.evaluate('probe.app.seekRow(40)')
        for theme in ('light', 'dark'):
            self.page.evaluate('document.documentElement.dataset.theme = "%s"' % theme)
            for selector in ('.row.later .name', '.row.later .rest', '.row .number', '.row .area', '#file', '#found', 'th'):
                self.assertGreaterEqual(self.least(selector, 'color'), 4.5, (theme, selector))
            for selector in ('button', 'select', 'input:not([type=checkbox]):not([type=range]):not([type=file])'):
                self.assertGreaterEqual(self.least(selector, 'borderTopColor'), 3, (theme, selector))
        self.page.evaluate('delete document.documentElement.dataset.theme')

    def test_bars_do_not_jump(self):
        """The stage has the same box in all views, with work and without."""
        box = 'JSON.stringify(document.getElementById("stage").getBoundingClientRect())'
        for width in (1280, 1400):
            self.page.size(width, 860)
            self.page.press('1', '1')
            boxes = [self.page.evaluate(box)]
            for key in '234':
                self.page.press(key, key)
                boxes.append(self.page.evaluate(box))
            self.page.evaluate('probe.app.work("reading ahead", 0.5, () => {})')
            boxes.append(self.page.evaluate(box))
            self.page.evaluate('probe.app.work(null)')
            self.assertEqual(len(set(boxes)), 1, boxes)
        self.page.size(1400, 860)
        self.page.press('1', '1')

    def test_the_window_does_not_scroll(self):
        for box in ('compare-box', 'registers-box'):
            self.page.evaluate('document.getElementById("%s").open = true' % box)
        for width in (1000, 1280, 1400):
            self.page.size(width, 700)
            self.assertEqual(self.page.evaluate('document.documentElement.scrollHeight'), 700)
        self.page.size(1400, 860)

    def test_columns(self):
        """No name is cut, and the areas of all rows end in one column."""
        self.page.evaluate('probe.app.seekRow(50)')
        cut = self.page.evaluate('[...document.querySelectorAll("#list .name")]'
                                 '.filter(at => at.scrollWidth > at.clientWidth).map(at => at.textContent)')
        self.assertEqual(cut, [])
        ends = self.page.evaluate('[...new Set([...document.querySelectorAll("#list .row:not([hidden]) .area")]'
                                  '.map(at => at.getBoundingClientRect().right))].length')
        self.assertEqual(ends, 1)
        ends = self.page.evaluate('[...new Set([...document.querySelectorAll("#list .row:not([hidden]) .number")]'
                                  '.map(at => at.getBoundingClientRect().right))].length')
        self.assertEqual(ends, 1)

    def test_four_to_three(self):
        self.assertEqual(self.page.load(two_buffers(2)), True)
        self.page.press('1', '1')
        self.page.click('#wide')
        self.assertEqual(self.page.evaluate('probe.viewer.views.view.aspect'), 1, '320 by 240 is 4:3')
        self.page.evaluate('probe.app.picture = { width: 256, height: 240, bytes: new Uint8ClampedArray(4 * 256 * 240) };'
                           'probe.viewer.views.draw()')
        self.assertAlmostEqual(self.page.evaluate('probe.viewer.views.view.aspect'), 1.25)
        self.page.click('#wide')
        self.assertEqual(self.page.evaluate('probe.viewer.views.view.aspect'), 1)

    def test_folds_and_theme_are_kept(self):
        wide = self.page.evaluate('document.getElementById("stage").clientWidth')
        for side in ('left', 'right'):
            self.page.click('#fold-' + side)
        self.assertGreater(self.page.evaluate('document.getElementById("stage").clientWidth'), wide + 500)
        self.assertEqual(self.page.evaluate('[localStorage["valerianpane-left"], localStorage["valerianpane-right"]]'),
                         ['folded', 'folded'])
        for side in ('left', 'right'):
            self.page.click('#fold-' + side)
        self.page.click('#theme')
        kept = self.page.evaluate('[localStorage["valerianpane-theme"], document.documentElement.dataset.theme]')
        self.assertEqual(kept[0], kept[1])
        self.page.click('#theme')


class Phone(Reader):
    """A telephone of 390 by 844."""

    def setUp(self):
        super().setUp()
        self.page.call('Emulation.setTouchEmulationEnabled', enabled=True, maxTouchPoints=2)
        self.page.size(390, 844)
        self.page.evaluate('scrollTo(0, 0); probe.viewer.views.choose("picture"); probe.viewer.views.view.fit()')

    def tearDown(self):
        self.page.call('Emulation.setTouchEmulationEnabled', enabled=False)
        self.page.size(1400, 860)
        super().tearDown()

    def touch(self, kind, *points):
        self.page.call('Input.dispatchTouchEvent', type=kind, touchPoints=[
            {'x': x, 'y': y, 'id': k} for k, (x, y) in enumerate(points)])

    def test_a_swipe_scrolls_the_page(self):
        view = self.page.evaluate('[probe.viewer.views.view.x, probe.viewer.views.view.scale]')
        self.touch('touchStart', (200, 400))
        for y in range(390, 190, -10):
            self.touch('touchMove', (200, y))
        self.touch('touchEnd')
        self.page.until('scrollY > 100')
        self.assertEqual(self.page.evaluate('[probe.viewer.views.view.x, probe.viewer.views.view.scale]'), view)

    def test_a_pinch_zooms(self):
        scale = self.page.evaluate('probe.viewer.views.view.scale')
        box = self.page.evaluate('(({ x, y, width, height }) => [x + width / 2, y + height / 2])'
                                 '(document.getElementById("canvas").getBoundingClientRect())')
        x, y = box
        self.touch('touchStart', (x - 20, y), (x + 20, y))
        for d in range(20, 84, 4):
            self.touch('touchMove', (x - d, y), (x + d, y))
        self.touch('touchEnd')
        self.assertGreater(self.page.evaluate('probe.viewer.views.view.scale'), 2.5 * scale)
        self.assertEqual(self.page.evaluate('[scrollY, visualViewport.scale]'), [0, 1])

    def test_a_tap_picks(self):
        self.page.press('End')
        x, y = self.page.ask('placeOf', 100, 100)
        self.touch('touchStart', (x, y))
        self.touch('touchEnd')
        self.assertEqual(self.page.evaluate('probe.app.cell'), {'x': 100, 'y': 100})

    def test_opening_does_not_push_the_picture_away(self):
        self.page.evaluate('probe.viewer.receiver.open(new Blob([Uint8Array.from(atob(JSON.parse(document.getElementById('
                           '"example-files").textContent).smear), letter => letter.charCodeAt(0))]), "smear.capture")')
        self.page.until('document.title.startsWith("smear") && document.activeElement.id === "list"')
        self.assertEqual(self.page.evaluate('scrollY'), 0)
        top = self.page.evaluate('document.getElementById("canvas").getBoundingClientRect().top')
        self.assertGreater(self.page.evaluate('innerHeight') - top, 300)
