"""The history of a cell, played for that cell alone where that is right: python3 -m tests.viewer.test_history, after `make web`.

Captures at random read textures, palettes and copies from where they draw, so that some parts have to be played whole."""
import random
import unittest

from tests.viewer.page import Page, program
from tests.viewer.made import drawn_at_random
from tests.viewer.recordings import BUSY, VALLEY, two_buffers, unpacked

from psxgpu.capture import (Capture, copy, drawing_area, drawing_offset, fill, line, polygon, rectangle, screen,
                            texture_window)

# Keeps states at short intervals, so that a small capture has many parts.
STATES = '''(async step => {
    const { app } = probe.viewer, { recording } = app;
    const pass = new module_pass.Pass(recording, new module_machine.Machine(app.library));
    recording.keyframes = new module_keyframes.Keyframes();
    pass.fit = () => {};
    for (pass.slice = pass.apart = step; !pass.isDone();) pass.turn();
})(%d)'''
# The changes of a cell, and how its parts were played.
HISTORY = '''(async (x, y) => {
    const { app } = probe.viewer, played = { narrow: 0, whole: 0 };
    const history = new module_history.History(app.recording, app.machine, { x, y });
    const [narrow, whole] = [history.narrow, history.whole].map(does => does.bind(history));
    history.narrow = (...args) => { const is = narrow(...args); played.narrow += is; return is; };
    history.whole = (...args) => { played.whole++; whole(...args); };
    await history.run(0, () => {}, async () => {});
    app.player.at = -1;
    return [history.changes.map(({ step, before, after }) => [app.recording.track.event(step), before, after]), played];
})(%d, %d)'''


def reading_what_is_drawn(seed, packets=400):
    """Packets whose textures, palettes and copies are inside and outside of what others draw; two buffers."""
    at = random.Random(seed)
    out = Capture(2).gp1(screen(0, 0, 320, 240))
    point = lambda: (at.randrange(-20, 340), at.randrange(-20, 260))
    texel = lambda: (at.randrange(256), at.randrange(256))
    pages = [0x000, 0x085, 0x10A, 0x01F, 0x08B]
    for number in range(packets):
        kind = at.random()
        if kind < 0.08:
            top = at.choice((0, 256))
            out.gp0(drawing_area(at.randrange(40), top, at.randrange(200, 320), top + at.randrange(60, 240)),
                    drawing_offset(0, top))
        elif kind < 0.12:
            out.gp0(copy(at.randrange(400), at.randrange(300), at.randrange(1024), at.randrange(512), 60, 40))
        elif kind < 0.15:
            out.gp0(fill(at.getrandbits(24), 16 * at.randrange(20), at.randrange(300), 64, 50))
        elif kind < 0.5:
            out.gp0(polygon([point() for _ in range(4)], at.getrandbits(24), [texel() for _ in range(4)],
                            page=at.choice(pages), palette=at.choice((0x0000, 0x7810, 0x4003)), semi=at.random() < 0.5))
        elif kind < 0.7:
            out.gp0(rectangle(at.getrandbits(24), *point(), 50, 40, texture=texel(), palette=at.choice((0, 0x7810))))
        elif kind < 0.9:
            out.gp0(polygon([point() for _ in range(3)], at.getrandbits(24), semi=at.random() < 0.5))
        elif kind < 0.95:
            out.gp0(line([point() for _ in range(4)], at.getrandbits(24), semi=True))
        elif kind < 0.97:
            out.gp0(texture_window(*(at.randrange(32) for _ in range(4))))
        elif kind < 0.98:
            out.gp1(0x00000000).gp0(drawing_area(0, 0, 319, 239))
        else:
            out.gp1(0x05000000)
    return out.bytes()


class History(unittest.TestCase):
    @classmethod
    def setUpClass(cls):
        cls.page = cls.enterClassContext(Page())

    def check(self, data, cells, step):
        """The changes of each cell are the lines of `pixel`. Returns how many parts were played in each way."""
        self.assertEqual(self.page.load(data), True)
        self.page.evaluate(STATES % step)
        played = {'narrow': 0, 'whole': 0}
        for x, y in cells:
            changes, ways = self.page.evaluate(HISTORY % (x, y))
            lines = [line.split() for line in program('pixel', str(x), str(y), data=data)[0].decode().splitlines()]
            told = [[int(event), int(before, 16), int(after, 16)] for event, _, _, before, after in lines]
            self.assertEqual(changes, told, (x, y))
            for way in played:
                played[way] += ways[way]
        return played

    def test_at_random(self):
        at = random.Random(9)
        for seed in range(4):
            cells = [(at.randrange(320), at.choice((0, 256)) + at.randrange(240)) for _ in range(12)]
            played = self.check(reading_what_is_drawn(seed), cells, 150)
            self.assertGreater(played['narrow'], 10)
            self.assertGreater(played['whole'], 10)

    def test_packets_of_all_kinds(self):
        at = random.Random(10)
        for seed in (21, 22):
            cells = [(at.randrange(400), at.randrange(300)) for _ in range(12)]
            self.check(drawn_at_random(seed, 600), cells, 100)

    def test_two_buffers_are_played_for_the_cell_alone(self):
        played = self.check(two_buffers(8), [(30, 40), (90, 280), (160, 120), (0, 0), (319, 479)], 40)
        self.assertEqual(played['whole'], 0)
        self.assertGreaterEqual(played['narrow'], 5)

    def test_recordings(self):
        for path in (BUSY, VALLEY):
            data = unpacked(path)
            self.check(data, [(160, 120), (40, 200), (200, 300), (640, 10)], 20000)

    def test_tall(self):
        out = Capture(3).gp1(screen(0, 0, 320, 240))
        for top in (0, 600):
            out.gp0(drawing_area(0, top, 319, top + 239), drawing_offset(0, top))
            for k in range(9):
                out.gp0(rectangle(0x101010 * k, 10 * k, 20, 60, 60, semi=True))
        played = self.check(out.bytes(), [(50, 40), (60, 630), (200, 700)], 10)
        self.assertEqual(played['whole'], 0)
