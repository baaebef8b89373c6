"""The crate's machine against the program: whole captures, random ones, and damaged ones, in every mode."""
import random
import unittest

import psxgpu
from psxgpu.capture import (BEGIN, CLEAR_TABLE, DMA, GP0, GP1, LIST, RAM, READ, SKIP, STAT, TURN, Capture, drawing_area,
                            fill)
from tests.library import support as program
from tests.recorder.test_reader import KINDS, damaged, random_capture
from tests.rust.support import driver, needs_driver

setUpModule = needs_driver

COMMANDS = [mode for mode in psxgpu.MODES if mode != 'pixel'] + ['pixel 20 30', 'pixel 1023 511']
START = 0x01000000


def drawing(r):
    """A capture that draws, and moves words by DMA as it may be moved and as it may not."""
    out = Capture(r.choice((2, 3))).gp0(drawing_area(0, 0, 1023, 511))
    for kind in r.choices((GP0, GP0, GP0, GP1, READ, STAT, RAM, DMA, BEGIN, TURN, SKIP), k=r.randrange(2, 30)):
        if kind == GP0:
            head = r.choice((0x20, 0x2C, 0x30, 0x40, 0x4A, 0x60, 0x64, 0x80, 0xA0, 0xC0, 0xE1, 0xE6)) << 24
            out.gp0(r.choice((fill(r.getrandbits(24), 16 * r.randrange(64), r.randrange(512), 32, 9), [
                head | r.getrandbits(24), *(r.randrange(64) << 16 | r.randrange(64) for _ in range(r.randrange(12)))])))
        elif kind == GP1:
            out.gp1(r.choice((0x05000000, 0x3F000001, 0x08000001, 0x01000000, r.getrandbits(32))))
        elif kind == RAM:
            out.ram(0x1000, r.randrange(4) << 24 | r.choice((0xFFFFFF, 0x1000, 0x1010)), *(r.getrandbits(32),) * 3)
        elif kind == DMA:
            channel = r.choice((2, 2, 6))
            chcr = CLEAR_TABLE if channel == 6 else r.choice((LIST, LIST, START | 0x201, START | 0x200, START | 0x601))
            out.dma(channel, 0x1000, r.choice((0x00020002, 4, 0x00090000)), chcr)
        elif kind == BEGIN:
            out.record(BEGIN, 2, [0x1000, 0x00020002, r.choice((LIST, START | 0x201, START | 0x200))])
        else:
            out.record(kind, 1 if kind == STAT else r.randrange(1, 4))
    return out.bytes()


class AgainstTheProgram(unittest.TestCase):
    def expect_same(self, data, commands):
        """Output, status and first line of an error are those of the program. Returns how many runs were refused."""
        refused = 0
        for command in commands:
            found = driver('play', *command.split(), data=data)
            self.assertEqual(found, program.play(command, data), (command, data[:4000].hex()))
            refused += found[0] == 2
        return refused

    @program.needs_player
    def test_examples(self):
        for path in program.EXAMPLES:
            data = program.bytes_at(path)
            for part in (data, data[:len(data) // 2], data[:7], data[:8] + b'\1\0\0\x0c'):
                with self.subTest(path=path, length=len(part)):
                    self.expect_same(part, COMMANDS if part is data else ('play', 'frames', 'pixel 20 30'))

    @program.needs_player
    def test_random_captures(self):
        refused = 0
        for seed in range(200):
            r = random.Random(seed)
            refused += self.expect_same(drawing(r), ('play', 'list', r.choice(COMMANDS)))
        self.assertGreater(refused, 60)

    @program.needs_player
    def test_hostile_captures(self):
        refused = 0
        for seed in range(200):
            r = random.Random(seed)
            data = damaged(r, drawing(r) if seed % 2 else random_capture(r, KINDS))
            refused += self.expect_same(data, ('play', r.choice(COMMANDS)))
        self.assertGreater(refused, 60)

    @program.needs_player
    def test_snapshots(self):
        for path in program.EXAMPLES:
            status, cut, _ = program.play('cut 5', program.bytes_at(path))
            if status == 0:
                self.expect_same(cut, ('play', 'vram', 'list'))
                self.expect_same(cut[:3000000], ('vram',))

    @program.needs_player
    def test_frames(self):
        """The pictures that the crate's iterator returns are those that the program writes, up to a fault."""
        found = 0
        for path in program.EXAMPLES:
            data = program.bytes_at(path)
            for part in (data, data[:len(data) // 2]):
                for command, end in (('frames', 'flips'), ('frames marks', 'marks')):
                    with self.subTest(path=path, command=command, length=len(part)):
                        status, pictures, error = program.play(command, part)
                        self.assertEqual(driver('frames', end, data=part), (status, pictures, error))
                        found += len(pictures)
        self.assertGreater(found, 1000000)


if __name__ == '__main__':
    unittest.main()
