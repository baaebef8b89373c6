"""The page as a reader has it: keys, pointing, search, narrow windows, names for screen readers.

    python3 -m tests.viewer.test_page
"""

from tests.viewer.page import program
from tests.viewer.reader import Reader, holding

# Roles that a reader can reach by the keyboard.
REACHED = {'button', 'checkbox', 'combobox', 'slider', 'textbox', 'searchbox', 'tab', 'listbox', 'link', 'progressbar',
           'dialog'}


class UsedByHand(Reader):
    def test_keys_go_through_time(self):
        length = self.page.evaluate('probe.app.recording.length')
        ends = self.page.ask('ends')
        for _ in range(10):
            self.page.press('ArrowRight', shift=True)
        self.assertEqual(self.at, ends[9])
        self.page.press('End')
        self.assertEqual(self.at, length)
        flips = self.page.evaluate('probe.app.recording.flips')
        for back, on in ('[]', ',.'):
            self.page.press(back, back)
            self.assertEqual(self.at, flips[-1] + 1)
            self.page.press(on, on)
            self.assertEqual(self.at, length)
        self.page.press('Home')
        self.assertEqual(self.at, 0)

    def test_playing_comes_to_the_end(self):
        self.page.press(' ', ' ')
        self.page.until('probe.app.at === probe.app.recording.length')
        self.page.until('document.getElementById("play").textContent === "Play"')

    def test_views_and_the_cell_by_keys(self):
        for key, name in (('2', 'drawn'), ('3', 'memory'), ('4', 'texture'), ('1', 'picture'), ('3', 'memory')):
            self.page.press(key, key)
            self.assertEqual(self.page.evaluate('probe.viewer.views.name'), name)
        self.page.press('End')
        self.page.press('v', 'v')
        self.page.press('ArrowDown')
        self.page.press('ArrowRight')
        self.page.press('Enter')
        self.assertEqual(self.page.evaluate('probe.app.cell'), {'x': 513, 'y': 257})
        self.assertIn('cell (513, 257)', self.page.evaluate('document.getElementById("place").textContent'))

    def test_pointing_and_clicking(self):
        self.page.press('End')
        self.page.press('1', '1')
        x, y = self.page.ask('placeOf', 150, 140)
        for kind in ('mouseMoved', 'mousePressed', 'mouseReleased'):
            self.page.call('Input.dispatchMouseEvent', type=kind, x=x, y=y, button='left', clickCount=1)
        self.assertEqual(self.page.evaluate('probe.app.cell'), {'x': 150, 'y': 140})
        self.page.until('!document.getElementById("history").hidden')
        with open(self.file, 'rb') as file:
            lines = program('pixel', '150', '140', data=file.read())[0].decode().splitlines()
        shown = self.page.evaluate('document.querySelectorAll("#history .row:not([hidden])").length')
        self.assertEqual(shown, len(lines))
        self.page.evaluate('document.querySelector("#history .row").click()')
        self.assertEqual(self.at - 1, self.page.evaluate('probe.viewer.pixel.history.changes[0].step'))

    def search(self, text):
        self.page.evaluate('document.getElementById("query").value = %r; probe.viewer.list.search()' % text)
        return self.page.evaluate('probe.viewer.list.found')

    def test_search(self):
        with open(self.file, 'rb') as file:
            lines = program('list', data=file.read())[0].decode().splitlines()
        for name in ('line', 'rectangle', 'environment', 'load'):
            self.assertEqual(len(self.search(name)), sum(line.split()[1] == name for line in lines))
        self.assertEqual(len(self.search('66808080')), sum(' 66808080 ' in line for line in lines))
        self.assertEqual(len(self.search('@ 150, 140')), len(holding(lines, 150, 140)))
        self.page.evaluate('document.getElementById("find").click()')
        self.assertEqual(self.page.evaluate('probe.app.row'), self.page.evaluate('probe.viewer.list.found[0]'))

    def test_an_example_opens_and_keys_go_on(self):
        self.page.click('#examples')
        self.page.evaluate('[...document.querySelectorAll("#examples + .menu button")]'
                           '.find(entry => entry.textContent === "smear").click()')
        self.page.until('document.title.startsWith("smear")')
        self.page.until('document.activeElement.id === "list"')
        self.page.ask('played')
        self.page.press('Home')
        ends = self.page.ask('ends')
        self.page.press('ArrowDown')
        self.assertEqual(self.at, ends[0])
        self.page.press('ArrowDown')
        self.assertEqual(self.at, ends[1])

    def test_no_request_leaves(self):
        self.assertEqual(self.page.evaluate('performance.getEntriesByType("resource").length'), 0)
        self.assertTrue(self.page.evaluate('fetch("https://example.org/").then(() => false, () => true)'))

    def test_all_that_is_reached_has_a_name(self):
        nodes = self.page.call('Accessibility.getFullAXTree')['nodes']
        bare = [node['role']['value'] for node in nodes
                if not node.get('ignored') and node.get('role', {}).get('value') in REACHED
                and not node.get('name', {}).get('value', '').strip()]
        self.assertEqual(bare, [])

    def test_every_width(self):
        for width in (320, 420, 700, 900, 1000, 1400, 2200):
            self.page.size(width, 800)
            self.assertLessEqual(self.page.evaluate('document.documentElement.scrollWidth - innerWidth'), 0, width)
            self.assertGreater(self.page.evaluate('document.getElementById("canvas").clientHeight'), 150, width)
        self.page.size(1400, 860)
