"""Addresses of places, event.item, and the links with them: python3 -m tests.viewer.test_addresses, after `make web`."""
import base64

from tests.viewer.page import examples, program
from tests.viewer.reader import Reader
from tests.viewer.recordings import read_by_dma


class Addresses(Reader):
    def test_each_row_has_its_own(self):
        """The list moves of one event of DMA: its rows are numbered from 1 in the order of `list`."""
        told = self.page.ask('addresses')
        events = [line.split()[0] for line in program('list', data=self.data)[0].decode().splitlines()]
        rows = [row for row in told['rows'] if row.split('.')[0] in events]
        self.assertEqual([row.split('.')[0] for row in rows], events)
        self.assertEqual(len(set(told['rows'])), len(told['rows']))
        inside = [row for row in rows if row.startswith('2947.')]
        self.assertEqual(inside, ['2947.%d' % (k + 1) for k in range(len(inside))])
        self.assertGreater(len(inside), 80)

    def test_each_place_is_found_by_its_address(self):
        for name, data in examples():
            if program('vram', data=data)[1]:
                continue
            with self.subTest(name):
                self.assertEqual(self.page.load(data, name), True)
                self.assertEqual(self.page.ask('addresses')['lost'], [])
        self.assertEqual(self.page.load(read_by_dma()), True)
        self.assertEqual(self.page.ask('addresses')['lost'], [])

    def go(self, text):
        self.page.press('g', 'g')
        self.page.write(text)
        self.page.press('Enter', '\r')

    def test_going_there(self):
        ends = self.page.ask('ends')
        rows = self.page.ask('addresses')['rows']
        self.go('2947.60')
        self.assertEqual(self.at, ends[rows.index('2947.60')])
        self.assertEqual(self.page.evaluate('document.getElementById("event").value'), '2947.60')
        self.assertIn('2947.60', self.page.text('#packet'))
        self.page.press('ArrowRight')
        self.assertEqual(self.at, ends[rows.index('2947.61')])

    def test_a_wrong_place_says_so(self):
        for text, why in (('2947.99', 'there is no item 99: event 2947 has 87 items'), ('400000', 'the last is 2948'),
                          ('x', 'write an event as 2947'), ('1.7', 'event 1 has 1 item')):
            before = self.at
            self.go(text)
            self.assertIn(why, self.page.text('#of'))
            self.assertEqual(self.at, before)
            self.page.press('Escape')
            self.assertEqual(self.page.evaluate('document.activeElement.id'), '')
            self.page.press('Shift')
        self.go('400000')
        self.page.press('Escape')
        self.page.press('End')
        self.assertEqual(self.at, self.page.evaluate('probe.app.recording.length'))

    def test_the_history_leads_to_the_row(self):
        lines = self.page.ask('pixel', 150, 140).splitlines()
        shown = self.page.evaluate('[...document.querySelectorAll("#history .row:not([hidden]) .number")]'
                                   '.map(number => number.textContent)')
        self.assertEqual([text.split('.')[0] for text in shown], [line.split()[0] for line in lines])
        self.assertEqual(len(set(shown)), len(shown))
        for index, address in enumerate(shown):
            self.page.evaluate('probe.viewer.pixel.list.does.pick(%d)' % index)
            self.assertEqual(self.page.evaluate('document.getElementById("event").value'), address)

    def test_a_cut_inside_of_dma(self):
        """What is cut after item 60 has the state after it, and continues as the recording does."""
        data = self.data
        self.go('2947.60')
        cut = base64.b64decode(self.page.ask('cutHere'))
        self.assertEqual(program('vram', data=cut), program('vram', data=data))
        after = [line.split()[1:] for line in program('list', data=cut)[0].decode().splitlines()]
        whole = [line.split()[1:] for line in program('list', data=data)[0].decode().splitlines()]
        self.assertEqual(after, whole[-len(after):])
        self.assertEqual(len(after), 27 + sum(line.startswith('2948 ')
                                              for line in program('list', data=data)[0].decode().splitlines()))
        here = self.page.ask('memory')
        self.assertEqual(self.page.load(cut, 'cut.snapshot'), True)
        self.page.evaluate('probe.app.seek(0)')
        self.assertEqual(self.page.ask('memory'), here)

    def test_a_cut_where_dma_reads_is_refused(self):
        self.assertEqual(self.page.load(read_by_dma(), 'reads.capture'), True)
        step = self.page.evaluate('Array.from({ length: probe.app.recording.length }, (_, k) => k)'
                                  '.find(k => probe.app.recording.track.kind(k) === 4)')
        self.page.evaluate('probe.app.seek(%d)' % (step + 1))
        self.page.evaluate('probe.viewer.out.does("cut")')
        self.page.until('document.getElementById("said").textContent.includes("reads from the port: go to its end")')


class Links(Reader):
    def link(self, hash_, name='textured-frame.capture'):
        self.page.evaluate('location.hash = %r' % hash_)

    def state(self):
        return self.page.evaluate('[probe.viewer.views.name, document.getElementById("event").value, probe.app.cell, '
                                  '[probe.viewer.views.view.scale, ...Object.values(probe.viewer.views.view.middle())]'
                                  '.map(Math.round), document.getElementById("palette").value]')

    def tearDown(self):
        self.page.evaluate("history.replaceState(null, '', '#')")
        super().tearDown()

    def test_a_link_has_all_that_is_seen(self):
        self.page.evaluate('probe.app.choose({ x: 150, y: 140 }); probe.app.seek(module_address.stepsAt('
                           'probe.app.recording, "2947.60")); probe.viewer.views.choose("texture"); '
                           'probe.viewer.views.choice.set(8, 640, 0, 0, 481); probe.viewer.views.view.lookAt(6, 30, 40)')
        before, link = self.state(), self.page.evaluate('module_link.linkTo(probe.app, probe.viewer.views)')
        self.assertEqual(link, '#event=2947.60&view=texture&zoom=6,30,40&cell=150,140&texture=8,640,0,0,481')
        self.page.load(self.data, 'textured-frame.capture')
        self.page.evaluate('probe.viewer.views.choice.set(4, 0, 0, 0, 0)')
        self.link(link)
        self.page.until('document.getElementById("event").value === "2947.60"')
        self.assertEqual(self.state(), before)
        self.page.set('#palette', '')
        self.page.set('#page', '')
        self.page.set('#depth', '0')

    def test_an_example_opens_in_an_open_page(self):
        self.link('#example=smear&event=519&view=memory')
        self.page.until('document.title.startsWith("smear") && document.getElementById("event").value === "519"')
        self.assertEqual(self.page.evaluate('probe.viewer.views.name'), 'memory')
        self.link('#example=nothing')
        self.page.until('document.getElementById("said").textContent.includes("There is no example")')
        self.page.evaluate('probe.app.say("")')

    def test_a_link_to_beside_the_image(self):
        self.page.evaluate('probe.viewer.views.choose("memory"); probe.viewer.views.view.lookAt(2, -30, 40)')
        link = self.page.evaluate('module_link.linkTo(probe.app, probe.viewer.views)')
        self.assertIn('zoom=2,-30,40', link)
        self.page.evaluate('probe.viewer.views.view.fit()')
        self.link(link)
        self.page.until('Math.round(probe.viewer.views.view.middle().x) === -30')
        self.page.evaluate('probe.viewer.views.view.fit()')

    def test_a_link_is_followed_once(self):
        self.link('#event=522')
        self.page.until('document.getElementById("event").value === "522"')
        self.page.load(self.data, 'again.capture')
        self.assertEqual(self.at, self.page.evaluate('probe.app.recording.length'))

    def test_a_wrong_link_says_so(self):
        self.link('#event=2947.99')
        self.page.until('document.getElementById("said").textContent.includes("has 87 items")')
        self.page.evaluate('probe.app.say("")')
