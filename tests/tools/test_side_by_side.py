"""Work side by side, in parts of a recording, has the result of the work on the whole."""
from __future__ import annotations

import glob
import lzma
import os
import random
import signal
import subprocess
import sys
import threading
import time
import unittest
from typing import Callable, List
from unittest import mock

from psxgpu import capture as c
from psxgpu.command import ToolError
from psxgpu.heat.shown import shown_of
from psxgpu.jobs import in_order
from psxgpu.parallel import results
from psxgpu.players import audit
from psxgpu.players.flat import flattened
from psxgpu.players.listed import Walk
from psxgpu.players.named import player_of
from psxgpu.players.parts import PartWalk, parts_of
from psxgpu.stopping import session
from psxgpu.textures.parts import collected
from tests import support

FLIP, MARK = 0x05, 0x3F


def failing(number: int) -> int:
    """Fails in one of the ways in which a tool may fail."""
    if number == 1:
        raise ToolError('one')
    if number == 2:
        with open('/nowhere/two', 'rb'):
            pass
    return [5][number]


def waiting(pids: str) -> None:
    """Starts a player that does not end, and waits for it."""
    with session(['sh', '-c', 'echo $$ >> "$0"; exec sleep 300', pids]) as child:
        child.wait()


# Runs two of them side by side, and may be stopped.
WAITS = """
import sys
from psxgpu.parallel import results
from psxgpu.stopping import stoppable
from tests.tools.test_side_by_side import waiting
with stoppable():
    list(results(2, waiting, [(sys.argv[1],), (sys.argv[1],)]))
"""


def recording(seed: int) -> bytes:
    """Frames of random packets, some of which draw into their textures, and some of which a flip interrupts."""
    at = random.Random(seed)
    out = c.Capture(2).gp1(0x08000001, 0x06C00200, 0x07040010, 0x03000000)
    out.gp0(c.drawing_area(0, 0, 1023, 511), c.load(64, 0, 8, 8, [at.getrandbits(16) for _ in range(64)]))
    for frame in range(12):
        words: List[int] = []
        for _ in range(at.randrange(12)):
            x, y, page = at.randrange(128), at.randrange(32), c.texture_page(64 * at.randrange(2), 0, at.randrange(3))
            quad = [(x, y), (x + 8, y), (x, y + 8), (x + 8, y + 8)]
            texture = [(0, 0), (8, 0), (0, 8), (8, 8)] if at.random() < 0.7 else None
            words += c.polygon(quad, at.randrange(1 << 24), texture, page=page, palette=c.clut(64, 0))
            words += [0xE5000000 | at.randrange(16)] * (at.random() < 0.2)
        words += at.choice(([], c.load(64, 0, 4, 4, range(16)), c.line([(1, 2), (30, 40), (9, 9)], 0xFF)))
        inside = at.randrange(len(words) + 1) if frame % 3 == 0 else len(words)
        out.gp0(words[:inside]).gp1(at.choice((FLIP, MARK)) << 24 | 0x400 * frame).gp0(words[inside:])
    return out.bytes()


class Calls(unittest.TestCase):
    def test_in_order(self) -> None:
        """The first item is the last to be done; no more than three items are begun before it is."""
        begun, first = [], threading.Event()    # type: List[int], threading.Event

        def work(number: int) -> int:
            begun.append(number)
            if len(begun) == 3:
                first.set()
            self.assertTrue(number or first.wait(60))
            return number
        found = in_order(3, work, range(9))
        self.assertEqual((next(found), sorted(begun)), (0, [0, 1, 2]))
        self.assertEqual(list(found), list(range(1, 9)))

    def test_failures(self) -> None:
        """An error of a call is that of the tool; what is no error of it is told in a line."""
        self.assertEqual(list(results(2, failing, [(0,), (0,)])), [5, 5])
        for number, said in ((1, '^one$'), (2, '^/nowhere/two: No such file'), (3, 'IndexError')):
            with self.assertRaisesRegex(ToolError, said):
                list(results(2, failing, [(0,), (number,)]))


class Stopped(support.InFolder):
    def test_all_end(self) -> None:
        """What the processes of a tool have started ends with the tool."""
        pids = self.write('pids', '')
        with subprocess.Popen([sys.executable, '-c', WAITS, pids], cwd=support.TOP, stderr=subprocess.DEVNULL) as child:
            self.until(lambda: self.read('pids').count(b'\n') == 2)
            child.send_signal(signal.SIGTERM)
        self.until(lambda: not any(os.path.exists('/proc/' + pid.decode()) for pid in self.read('pids').split()))

    def until(self, holds: Callable[[], bool]) -> None:
        """Waits until something holds."""
        end = time.monotonic() + 60
        while not holds():
            self.assertLess(time.monotonic(), end)
            time.sleep(0.02)


@support.needs_player
class Parts(support.InFolder):
    def captures(self) -> List[str]:
        """The examples that are not refused, the recordings of bench/, and random captures."""
        paths = sorted(set(glob.glob(os.path.join(support.EXAMPLES, '*.capture'))) - {support.example('list-loop')})
        for path in glob.glob(os.path.join(support.TOP, 'bench', '*.capture.xz')):
            with lzma.open(path) as file:
                paths.append(self.write(os.path.basename(path), file.read()))
        return paths + [self.write('random%d' % seed, recording(seed)) for seed in range(8)]

    def test_continue(self) -> None:
        """A part begins with what the parts before it leave: the registers, and what GP0 waits for."""
        for seed in range(8):
            path, before = self.write('capture', recording(seed)), None
            parts = parts_of(path, 'capture', (FLIP, MARK), 6, 1)
            self.assertGreater(len(parts), 3)
            self.assertEqual((parts[0].begin, parts[-1].end), (8, os.path.getsize(path) - 4))
            for part in parts:
                walk = PartWalk(part, support.PLAYER)
                if before:
                    self.assertEqual(*(
                        (it.registers, it.pixels, it.words, it.last and (it.command, *it.last))
                        for it in (walk.splitter, before.splitter)))
                for record in walk.records():
                    list(record.packets)
                before = walk

    def test_heat(self) -> None:
        for path in self.captures():
            with self.subTest(path), flattened(path, support.PLAYER) as flat:
                for end, wanted in ((FLIP, None), (MARK, None), (FLIP, 3)):
                    one, four = (shown_of(Walk(flat, 'a', support.PLAYER), end, wanted, jobs, 1) for jobs in (1, 4))
                    self.assertEqual((one.lines, one.number), (four.lines, four.number))
                    self.assertEqual(one.counts and one.counts.cells, four.counts and four.counts.cells)

    def test_textures(self) -> None:
        for path in self.captures():
            with self.subTest(path), flattened(path, support.PLAYER) as flat:
                one, four = (collected(Walk(flat, 'a', support.PLAYER), True, jobs, 1) for jobs in (1, 4))
                self.assertEqual((one.questions, one.packets), (four.questions, four.packets))
                self.assertEqual(list(map(vars, one.textures)), list(map(vars, four.textures)))

    def test_audit(self) -> None:
        """Groups of packets that are played side by side, each from what the groups before it leave."""
        data = recording(1)
        with mock.patch.object(audit, 'WORDS', 500):
            ours, theirs = (player_of('%s vram' % support.PLAYER) for _ in range(2))
            one, four = (audit.audit(data, ours, theirs, 1, 1 << 30, jobs=jobs) for jobs in (1, 4))
        self.assertEqual({kind: row.as_object() for kind, row in one.items()},
                         {kind: row.as_object() for kind, row in four.items()})

    def test_compare(self) -> None:
        paths = [self.write('a', recording(1)), self.write('b', recording(1)[:-4] + recording(2)[8:])]
        one, four = (support.run_tool('compare', *paths, '--jobs', jobs) for jobs in '14')
        self.assertEqual((one.stdout, one.returncode, one.stderr), (four.stdout, 1, ''))

    def test_refused(self) -> None:
        """A capture that is cut is gone through as a whole."""
        path = self.write('capture', recording(0)[:-40])
        for jobs in (1, 4):
            with self.assertRaisesRegex(ToolError, 'a: cut at byte'):
                collected(Walk(path, 'a', support.PLAYER), False, jobs, 1)


if __name__ == '__main__':
    unittest.main()
