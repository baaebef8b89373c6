"""Judges many experiments in one run of each player. An experiment is a few packets, of which the last ones draw.

Both players get the same capture. Before each experiment is a reset and all six settings. After it, the cells
that it may write are read, and get back what they had on the ground. So a difference does not reach the next one.
"""
from __future__ import annotations

import array
from functools import lru_cache
from itertools import takewhile
from typing import Dict, FrozenSet, Iterator, List, NamedTuple, Optional, Sequence, Tuple

from psxgpu.command import ToolError
from psxgpu.packets.grammar import LINE, LOAD, POLYLINE, SHADED, name_and_length
from psxgpu.packets.known import Packet, is_far
from psxgpu.packets.parts import signed
from psxgpu.packets.split import Splitter
from psxgpu.players.bisection import bisect
from psxgpu.players.looks import LOST as BROKEN
from psxgpu.players.looks import looks_of
from psxgpu.players.named import Player, dump_of, ending, expect_dump
from psxgpu.players.probes import END, HEAD, Box, load, size
from psxgpu.reduce.layout import places_of
from psxgpu.reduce.needs import DRAWN, SEGMENT, offset_of, target_of
from psxgpu.reduce.state import COLUMNS, box_cells
from psxgpu.reduce.units import Unit
from psxgpu.stream import GP0, GP1, READ
from psxgpu.words import corner

AROUND = 2                      # cells around a box that are looked at
RESET = (GP1 << 24 | 1, 0)
DROP = (GP1 << 24 | 1, 0x01000000)          # ends what is unfinished
IDLE = (0,) * 12                # ends packets of a player that keeps them unfinished
REGISTERS = range(0xE1, 0xE7)
PLAIN_LINE = 0x40
CLEAR = 0x01000000              # empties the caches of players that have some
TENTH, LOWEST, LAST = 1 << 19, 1023 << 10, 0x7FFFF     # of E4h: the tenth bit of the last row, all ten, all cells
Words = Tuple[int, ...]
Experiment = Tuple[Words, ...]
Boxes = Tuple[List[Box], List[Box]]


class Verdict(NamedTuple):
    """How both players differ after an experiment: `looks` is empty if they do not. `is_lost`: theirs ended before."""
    looks: FrozenSet[str] = frozenset()
    is_lost: bool = False

    @property
    def differs(self) -> bool:
        """Whether they differ."""
        return bool(self.looks)


SAME = Verdict()
LOST = Verdict(frozenset([BROKEN]), True)


def widened(x: int, y: int, w: int, h: int) -> Box:
    """Returns the cells of a box and around it: an even number in a row, and whole rows or columns if it wraps."""
    y &= 511
    if x + w > 1024:
        x, w = 0, 1024
    if y + h > 512:
        y, h = 0, 512
    return (max(0, x - AROUND) & ~1, max(0, y - AROUND), min(1023, x + w - 1 + AROUND) | 1,
            min(511, y + h - 1 + AROUND))


def merged(boxes: Sequence[Box]) -> List[Box]:
    """Returns boxes, those that meet as one."""
    out: List[Box] = []
    for box in boxes:
        for other in out:
            if box[0] <= other[2] and other[0] <= box[2] and box[1] <= other[3] and other[1] <= box[3]:
                out.remove(other)
                box = min(box[0], other[0]), min(box[1], other[1]), max(box[2], other[2]), max(box[3], other[3])
                break
        out.append(box)
    return out


def wrapped_targets(name: str, words: Sequence[int], registers: Dict[int, int]) -> List[Box]:
    """Returns the boxes of a packet in which some players draw it: its sums of vertex and offset wrap at eleven bits,
    if they have more; at the size of video memory, if it is drawn nowhere in it."""
    if name not in DRAWN or len(words) > SEGMENT and name == LINE:
        return []
    if name == LINE and words[0] >> 24 & POLYLINE:
        ends = (2, 4) if len(words) == SEGMENT else (1, 3) if words[0] >> 24 & SHADED else (1, 2)
        words = PLAIN_LINE << 24, *(words[at] for at in ends)
    bits = 11, 11
    if not is_far(Packet(name, words, registers)):
        if target_of(name, words, {**registers, 0xE3: 0, 0xE4: LAST}):
            return []
        bits, registers = (10, 9), {**registers, 0xE3: 0, 0xE4: LAST}
    unit, (ox, oy) = Unit(name, tuple(words)), offset_of(registers)
    moved = list(words)
    for k in places_of(unit, 'vertex'):
        moved[k] = corner(*((signed(words[k] >> shift) + by) % (1 << size)
                            for shift, by, size in zip((0, 16), (ox, oy), bits)))
    return target_of(name, moved, {**registers, 0xE5: 0})


def targets(name: str, words: Sequence[int], registers: Dict[int, int], lower: Sequence[int]) -> Iterator[Box]:
    """Yields the boxes of a packet: as here, with sums that wrap, and in areas whose last row has ten bits, as some
    players have them. `lower`: E4h of such areas."""
    yield from target_of(name, words, registers)
    yield from wrapped_targets(name, words, registers)
    for word in lower:
        yield from target_of(name, words, {**registers, 0xE4: word & 0xFFFFF})


@lru_cache(4096)
def boxes_of(experiment: Experiment) -> Boxes:
    """Returns the boxes that the packets of an experiment may write, and those of loads before the last packet, which
    are not looked at."""
    splitter, seen, loaded = Splitter(), [], []     # type: Splitter, List[Box], List[Box]
    settings = list(takewhile(lambda packet: packet[0] >> 24 in REGISTERS, experiment))
    lower = [packet[0] | LOWEST for packet in settings if packet[0] >> 24 == 0xE4 and packet[0] & TENTH]
    for _ in splitter.push([word for packet in settings for word in packet]):
        pass
    for k, packet in enumerate(experiment[len(settings):], len(settings)):
        is_load = name_and_length(packet[0])[0] == LOAD
        for name, words, _ in splitter.push(packet[:3] if is_load else packet):
            for box in targets(name, words, splitter.registers, lower):
                if box[2] > 0 and box[3] > 0:
                    (loaded if is_load and k < len(experiment) - 1 else seen).append(widened(*box))
        splitter.clear()
    return merged(seen) or [(0, 0, 3, 3)], loaded


def cells_of(experiment: Experiment) -> int:
    """Returns how many cells are looked at after an experiment."""
    return sum(map(size, boxes_of(experiment)[0]))


def record(words: Sequence[int]) -> List[int]:
    """Returns words for GP0 as a record."""
    return [GP0 << 24 | len(words), *words]


class Bench:
    """Two players that know `play` and `vram`, and a ground: the words for GP0 that make the cells before each
    experiment."""

    def __init__(self, ours: Player, theirs: Player, ground: Sequence[int] = (),
                 seconds: Optional[float] = None) -> None:
        self.ours, self.theirs, self.seconds = ours, theirs, seconds
        self.start = array.array('I', record(ground) if ground else [])
        self.dump = expect_dump(ours, HEAD + self.start.tobytes() + END, seconds)
        self.last: Tuple[Sequence[Experiment], Sequence[Boxes]] = ([], [])

    def cells(self, box: Box) -> array.array[int]:
        """Returns what the ground has in a box."""
        x1, y1, x2, y2 = box
        return box_cells(self.dump, x1, y1, x2 - x1 + 1, y2 - y1 + 1)

    def play(self, player: Player, data: bytes, count: int) -> array.array[int]:
        """Returns the words that a player read, fewer than `count` if it broke down."""
        text = player.run('play', data, self.seconds).out[:9 * count]
        try:
            words = array.array('I', bytes.fromhex(text[:len(text) // 9 * 9].decode('ascii')))
        except ValueError:
            return array.array('I')
        words.byteswap()
        return words

    def judge(self, experiments: Sequence[Experiment]) -> List[Verdict]:
        """Judges each experiment."""
        if not experiments:
            return []
        boxes = [boxes_of(one) for one in experiments]
        self.last = experiments, boxes
        data, total = self.capture(experiments, boxes), sum(size(box) // 2 for seen, _ in boxes for box in seen)
        mine, theirs = (self.play(player, data, total) for player in (self.ours, self.theirs))
        if len(mine) != total:
            raise ToolError('%s: %d words of %d with `play`' % (self.ours.text, len(mine), total))
        if len(theirs) < total:
            if len(experiments) == 1:
                return [LOST]
            half = len(experiments) // 2
            return self.judge(experiments[:half]) + self.judge(experiments[half:])
        out, at = [], 0
        for seen, _ in boxes:
            count = sum(size(box) // 2 for box in seen)
            is_same = mine[at:at + count] == theirs[at:at + count]
            out.append(SAME if is_same else self.verdict(seen, mine[at:at + count], theirs[at:at + count]))
            at += count
        return out

    def verdict(self, seen: Sequence[Box], mine: array.array[int], theirs: array.array[int]) -> Verdict:
        """Returns how words that were read differ."""
        ours, other = (array.array('H', words.tobytes()) for words in (mine, theirs))
        looks, at = frozenset(), 0      # type: FrozenSet[str], int
        for box in seen:
            end = at + size(box)
            looks |= looks_of(self.cells(box), ours[at:end], other[at:end], box[2] - box[0] + 1)
            at = end
        return Verdict(looks)

    def stray(self) -> Optional[int]:
        """Returns the number of the first experiment of the last batch that changed cells outside of its boxes in their
        player alone; None if there is none."""
        experiments, boxes = self.last

        def differ(count: int) -> bool:
            data = self.capture(experiments[:count], boxes[:count])
            mine, theirs = (dump_of(player.run('vram', data, self.seconds)) for player in (self.ours, self.theirs))
            return theirs is not None and mine != theirs        # a player that breaks down has no dump
        found = bisect(len(experiments), differ)
        return found - 1 if found else None

    def capture(self, experiments: Sequence[Experiment], boxes: Sequence[Boxes]) -> bytes:
        """Returns the capture of experiments. After each one its boxes are read, and set to what the ground has."""
        out = self.start[:]
        for one, (seen, loaded) in zip(experiments, boxes):
            out.extend(RESET)
            out.extend(record([CLEAR, *(word for packet in one for word in packet)]))
            out.extend((*DROP, *record(IDLE)))
            for x1, y1, x2, y2 in seen:
                out.extend(record([0xC0000000, y1 << 16 | x1, (y2 - y1 + 1) << 16 | x2 - x1 + 1]))
                out.append(READ << 24 | (x2 - x1 + 1) * (y2 - y1 + 1) // 2)
            for box in (*seen, *loaded):
                out.extend(load(box, array.array('I', self.cells(box).tobytes()), 0))
        return HEAD + out.tobytes() + END


class DumpBench(Bench):
    """The same for a player that knows `vram` alone: whole dumps are compared. Experiments that agree are played
    together; those that do not are looked for by halves."""

    def judge(self, experiments: Sequence[Experiment]) -> List[Verdict]:
        if not experiments:
            return []
        self.last = [], []
        boxes: List[Boxes] = [([], []) for _ in experiments]
        data = self.capture(experiments, boxes)
        ours = expect_dump(self.ours, data, self.seconds)
        theirs = dump_of(self.theirs.run('vram', data, self.seconds))
        if ours == theirs:
            return [SAME] * len(experiments)
        if len(experiments) > 1:
            half = len(experiments) // 2
            return self.judge(experiments[:half]) + self.judge(experiments[half:])
        if theirs is None or len(theirs) != len(ours):
            return [LOST]
        before, mine, other = (array.array('H', dump) for dump in (self.dump, ours, theirs))
        return [Verdict(looks_of(before, mine, other, COLUMNS))]


def how_lost(bench: Bench, experiment: Experiment) -> str:
    """Returns how their player ends at an experiment."""
    data = bench.capture([experiment], [boxes_of(experiment)])
    return ending(bench.theirs.run('vram', data, bench.seconds))


def registers_of(experiment: Experiment) -> Dict[int, int]:
    """Returns E1h to E6h after an experiment."""
    splitter = Splitter()
    for packet in experiment:
        for _ in splitter.push(packet[:3] if name_and_length(packet[0])[0] == LOAD else packet):
            pass
        splitter.clear()
    return dict(splitter.registers)


