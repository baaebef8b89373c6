"""Stepping through packets, and where a recording opens: python3 -m tests.viewer.test_stepping, after `make web`."""

from tests.viewer.reader import Reader
from tests.viewer.recordings import BUSY, two_buffers, unpacked

DRAWN = 'probe.viewer.views.name'


class Stepping(Reader):
    def rows(self, keeps):
        """The ends of the rows that a condition on `kind` and `head` keeps, in order."""
        return self.page.evaluate('(() => { const { recording } = probe.app, { rows } = recording; return Array.from('
                                  '{ length: rows.length }, (_, row) => row).filter(row => { const kind = rows.kind[row], '
                                  'head = rows.head[row]; return %s; }).map(row => recording.endOf(row)); })()' % keeps)

    def test_arrows_go_by_packets_that_draw(self):
        drawing = self.rows('[1, 2, 3, 4, 5, 12].includes(kind) || kind === 0 && head >>> 24 === 2')
        found = []
        for _ in range(len(drawing)):
            self.page.press('ArrowRight')
            found.append(self.at)
        self.assertEqual(found, drawing)
        for end in reversed(drawing[:-1]):
            self.page.press('ArrowLeft')
            self.assertEqual(self.at, end)
        self.page.press('ArrowLeft')
        self.assertEqual(self.at, 0)

    def test_shift_goes_by_every_row(self):
        ends = self.page.ask('ends')
        for end in ends[:20]:
            self.page.press('ArrowRight', shift=True)
            self.assertEqual(self.at, end)
        self.page.press('ArrowLeft', shift=True)
        self.assertEqual(self.at, ends[18])

    def test_the_filter_is_obeyed(self):
        lines = self.rows('kind === 2 || kind === 12')
        self.page.set('#query', 'line')
        self.page.set('#filter', 'found')
        found = []
        for _ in lines:
            self.page.press('ArrowRight')
            found.append(self.at)
        self.assertEqual(found, lines)
        self.page.set('#filter', 'all')
        self.page.set('#query', '')

    def test_between_two_packets(self):
        """From inside a packet the arrows lead to the packet before and to its own end."""
        ends = self.page.ask('ends')
        self.page.evaluate('probe.app.seek(%d)' % (ends[40] - 1))
        self.page.press('ArrowRight', shift=True)
        self.assertEqual(self.at, ends[40])
        self.page.evaluate('probe.app.seek(%d)' % (ends[40] - 1))
        self.page.press('ArrowLeft', shift=True)
        self.assertEqual(self.at, ends[39])


class Drawn(Reader):
    def load(self, data, name='made.capture'):
        self.assertEqual(self.page.load(data, name), True)

    def test_opens_at_the_last_frame_with_its_picture(self):
        data = two_buffers()
        self.load(data)
        flips = self.page.evaluate('probe.app.recording.flips')
        self.assertEqual(self.at, flips[-1] + 1)
        self.assertEqual(self.page.evaluate(DRAWN), 'picture')
        colors = self.page.evaluate('[...new Set(new Uint32Array(probe.viewer.views.view.image.data.buffer))].length')
        self.assertEqual(colors, 4)

    def test_a_picture_of_one_colour_is_not_where_it_opens(self):
        """The last display start comes before anything is drawn: the end is shown."""
        self.load(self.data)
        self.assertEqual(self.at, self.page.evaluate('probe.app.recording.length'))

    def test_each_step_is_seen(self):
        """With two buffers the shown picture stays, and Drawn changes with each packet."""
        self.load(two_buffers())
        self.page.press('Home')
        sums, views = [self.page.ask('viewSum')], []
        for _ in range(8):
            self.page.press('ArrowRight')
            views.append(self.page.evaluate(DRAWN))
            sums.append(self.page.ask('viewSum'))
        self.assertEqual(set(views), {'drawn'})
        self.assertTrue(all(now != before for before, now in zip(sums, sums[1:])))
        size = self.page.evaluate('[probe.viewer.views.view.width, probe.viewer.views.view.height]')
        self.assertEqual(size, [320, 240])

    def test_frames_go_back_to_the_picture(self):
        self.load(two_buffers())
        self.page.press('ArrowLeft')
        self.assertEqual(self.page.evaluate(DRAWN), 'drawn')
        self.page.press(',', ',')
        self.assertEqual(self.page.evaluate(DRAWN), 'picture')

    def test_who_looks_around_is_not_taken_to_the_last_frame(self):
        self.load(two_buffers())
        self.page.evaluate('Object.assign(probe.app.ahead, { goal: 9, isOpening: true }); 0')
        self.page.set('#query', '')
        self.page.evaluate('document.getElementById("query").dispatchEvent(new Event("input", { bubbles: true }))')
        self.assertEqual(self.page.evaluate('[probe.app.goal, probe.app.ahead.isOpening]'), [-1, False])

    def test_a_step_keeps_the_zoom(self):
        self.load(two_buffers())
        self.page.evaluate('probe.viewer.views.view.lookAt(6, 40, 50)')
        self.page.press('ArrowLeft')
        self.assertEqual(self.page.evaluate('[%s, probe.viewer.views.view.scale]' % DRAWN), ['drawn', 6])
        self.page.evaluate('probe.viewer.views.view.fit()')

    def test_playing_at_the_last_frame_begins_anew(self):
        self.load(two_buffers())
        self.page.evaluate('window.least = Infinity; probe.app.on("moved", () => { '
                           'window.least = Math.min(window.least, probe.app.at); })')
        self.page.press(' ', ' ')
        self.page.until('document.getElementById("play").textContent === "Play"')
        self.assertEqual(self.page.evaluate('window.least'), 0)
        self.assertEqual(self.at, self.page.evaluate('probe.app.recording.length'))

    def test_a_view_that_was_chosen_stays(self):
        self.load(two_buffers())
        self.page.press('3', '3')
        for key in ('ArrowLeft', ',', 'End'):
            self.page.press(key, key if len(key) == 1 else None)
            self.assertEqual(self.page.evaluate(DRAWN), 'memory')

    def test_what_is_drawn_elsewhere_is_seen_in_video_memory(self):
        """The loads of the textured frame are outside of its drawing area."""
        self.page.press('Home')
        self.page.press('ArrowRight')
        self.assertEqual(self.page.evaluate('probe.app.recording.rows.kind[probe.app.row]'), 5)
        self.assertEqual(self.page.evaluate(DRAWN), 'memory')
        self.page.press('End')
        self.page.press('ArrowLeft')
        self.assertEqual(self.page.evaluate(DRAWN), 'drawn')

    def test_cursor_and_outline_stay_where_a_jump_leads(self):
        self.load(two_buffers())
        at = self.page.evaluate('[(({ start }) => start)(module_pixels.shownBy(probe.app.registers, 512))]')[0]
        lines = self.page.ask('pixel', at['x'] + 90, at['y'] + 40).splitlines()
        self.assertGreater(len(lines), 2)
        self.page.evaluate('probe.viewer.pixel.list.does.pick(1)')
        self.assertEqual(self.page.evaluate(DRAWN), 'drawn')
        self.assertEqual(self.page.evaluate('probe.viewer.views.view.cursor'), {'x': 90, 'y': 40})

    def test_the_busy_second(self):
        """Each packet that changes video memory changes the view that stepping chooses; the picture stays."""
        self.load(unpacked(BUSY), 'busy-second.capture')
        self.page.evaluate('probe.app.seek(probe.app.starts[probe.app.starts.length >> 1] + 1, "frame")')
        told = self.page.evaluate('''(async () => {
            const { app, views } = probe.viewer, seen = { memory: 0, view: 0, picture: 0, same: 0 };
            const sums = async () => [await probe.sum(app.cells), await probe.viewSum(), await probe.picture()];
            let before = null;
            for (let k = 0; k < 60; k++) {
                app.stepRows(1);
                const now = await sums();
                if (before) ['memory', 'view', 'picture'].forEach((name, at) => { seen[name] += now[at] !== before[at]; });
                if (before && now[0] !== before[0] && now[1] === before[1]) seen.same++;
                before = now;
            }
            return seen;
        })()''')
        self.assertGreater(told['memory'], 40)
        self.assertEqual(told['picture'], 0)
        self.assertEqual(told['same'], 0)
