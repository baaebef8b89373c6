"""Counts how often each cell is covered: a capture in which each packet adds one step to the cells that it covers, and
pictures of the sums.

A packet is drawn flat, with B+F and one step of one of three channels in turn, so a cell counts to 31 in each. The sums
of a frame are read at its end. If a channel is full then, the frame is counted again in parts.
"""
from __future__ import annotations

import concurrent.futures
import functools
from array import array
from collections import deque
from typing import Deque, Dict, Iterator, List, NamedTuple, Optional, Sequence, Tuple

from psxgpu.packets.parts import POLYGONS, SIZES, line_parts, rectangle_parts
from psxgpu.packets.grammar import COPY, ENVIRONMENT, FILL, LINE, LOAD, POLYGON, QUAD, RECTANGLE
from psxgpu.packets.runs import Run
from psxgpu.packets.split import Splitter
from psxgpu.players.listed import Area, Listed, Walk
from psxgpu.players.questions import Box, Questions
from psxgpu.stream import GP0, GP1
from psxgpu.words import corner

COLUMNS = 1024
STEPS = (0x000008, 0x000800, 0x080000)      # a colour that adds one step to a channel: red, green, blue
MOST, EACH = 31, 2          # what a channel counts to, and what a packet adds at most: both triangles of a quad
ADD = 0xE1000020            # E1h: B+F, no dither
AREA_WORDS = (0xE3, 0xE4, 0xE5)   # settings that stay as they are
DRAWN = (POLYGON, LINE, RECTANGLE)
BATCH = 1 << 17             # words that are drawn in one run of the player
PARTS = 4                   # of a frame that is counted again


def vertex(point: Tuple[int, int]) -> int:
    """Returns the word of a vertex."""
    return corner(point[0] & 0x7FF, point[1] & 0x7FF)


def covering(name: str, words: List[int], color: int) -> List[int]:
    """Returns the words that add a colour to each cell that a packet covers."""
    if name == POLYGON:
        opcode = words[0] >> 24
        return [(0x22 | opcode & QUAD) << 24 | color, *words[POLYGONS[opcode].vertices]]
    if name == RECTANGLE:
        point, size, _ = rectangle_parts(words)
        return [0x62000000 | color, vertex(point), corner(*size)]
    return [0x42000000 | color, *map(vertex, line_parts(words)[0])]


def covering_run(run: Run, colors: "array[int]") -> "array[int]":
    """Returns the words that add a colour of its own to each cell that each packet of a run covers."""
    opcode, count = run.opcodes[0], run.packets
    if run.name == POLYGON:
        columns = [run.words[place::run.length] for place in range(run.length)[POLYGONS[opcode].vertices]]
        first = (0x22 | opcode & QUAD) << 24
    else:
        size = SIZES.get(opcode >> 3 & 3)
        columns = [run.words[1::run.length],
                   array('I', [corner(*size)]) * count if size else run.words[run.length - 1::run.length]]
        first = 0x62000000
    out = array('I', bytes(4 * count * (1 + len(columns))))
    for number, column in enumerate([array('I', [first | color for color in colors]), *columns]):
        out[number::1 + len(columns)] = column
    return out


@functools.lru_cache(8)
def ones(cells: int) -> int:
    """Returns a number with the lowest bit of each cell."""
    return int.from_bytes(b'\1\0' * cells, 'little')


class Frame:
    """What was counted in a frame: packets, the areas of fills, copies and loads, and the sums of boxes by box, a sum
    being one number with 16 bits a cell."""

    def __init__(self) -> None:
        self.packets = 0
        self.areas: List[Area] = []
        self.sums: Dict[Box, int] = {}

    def add(self, box: Box, cells: bytes) -> bool:
        """Adds the three channels of each cell of a box. Returns False, and adds nothing, if a channel may be full."""
        one, each = int.from_bytes(cells, 'little'), ones(len(cells) // 2)
        channels = [one >> shift & MOST * each for shift in (0, 5, 10)]
        if any(channel + each & (MOST + 1) * each for channel in channels):
            return False
        self.sums[box] = self.sums.get(box, 0) + sum(channels)
        return True


class Segment(NamedTuple):
    """The words that count some packets of a frame, from video memory of zeros on, and the boxes of their area."""
    frame: Frame
    words: "array[int]"
    boxes: Tuple[Box, ...]

    def parts(self, is_tall: bool) -> "Iterator[Segment]":
        """Yields the segment in parts with fewer packets, each with the settings before it."""
        splitter, drawn = Splitter(is_tall), []         # type: Splitter, List[List[int]]
        for name, packet, _ in splitter.push(self.words):
            if name in DRAWN:
                drawn.append([opcode << 24 | splitter.registers[opcode] for opcode in AREA_WORDS] + packet)
        size = -(-len(drawn) // PARTS)
        for at in range(0, len(drawn), size):
            words = [ADD]
            for number, packet in enumerate(drawn[at:at + size]):
                head = len(AREA_WORDS)
                words += packet
                words[head - len(packet)] = packet[head] & 0xFF << 24 | STEPS[number % len(STEPS)]
            yield Segment(self.frame, array('I', words), self.boxes)


class Batch:
    """Segments that are counted in one run of the player."""

    def __init__(self, is_tall: bool, segments: Sequence[Segment]) -> None:
        self.is_tall, self.segments = is_tall, segments
        self.questions = Questions(is_tall)
        for segment in segments:
            self.questions.words(segment.words)
            for x, y, w, h in segment.boxes:
                self.questions.ask((x, y, w, h))
                for row in range(y, y + h, 256):
                    self.questions.words([0x02000000, corner(x, row),
                                          corner(min(w, COLUMNS - 1), min(256, y + h - row))])

    def answers(self, program: str) -> List[bytes]:
        """Returns the cells of each box."""
        try:
            return [cells for _, cells in self.questions.answers(program)]
        finally:
            self.questions.close()

    def count(self, answers: Sequence[bytes], program: str) -> None:
        """Adds the sums to the frames. What has a full channel is counted again in parts."""
        at = 0
        for segment in self.segments:
            cells = answers[at:at + len(segment.boxes)]
            at += len(segment.boxes)
            again = [box for box, its in zip(segment.boxes, cells) if not segment.frame.add(box, its)]
            if again:
                rest = Batch(self.is_tall, list(segment._replace(boxes=tuple(again)).parts(self.is_tall)))
                rest.count(rest.answers(program), program)


class Counter:
    """Counts the frames of a recording. `ends`: the opcode of the control word that ends a frame."""

    def __init__(self, walk: Walk, ends: int, jobs: int = 1) -> None:
        self.walk, self.ends, self.jobs = walk, ends, jobs
        self.frame, self.done = Frame(), []             # type: Frame, List[Tuple[Frame, Optional[Segment]]]
        self.area: Optional[Area] = None
        self.number = 0                 # of packets that were drawn
        self.settings = {opcode: walk.registers[opcode] for opcode in AREA_WORDS}
        self.words = self.beginning()
        self.has_rest = False           # a packet of any kind since the last end of a frame

    def beginning(self) -> "array[int]":
        """Returns the words with which a segment begins."""
        return array('I', [ADD, *(opcode << 24 | value for opcode, value in self.settings.items())])

    def end(self) -> None:
        """Ends a frame."""
        segment = None
        if self.area:
            x1, y1, x2, y2 = self.area
            x1, x2 = x1 & ~15, x2 | 15          # fills begin at multiples of 16 cells
            boxes = tuple((x1, y, x2 - x1 + 1, min(512, y2 + 1 - y)) for y in range(y1, y2 + 1, 512))
            segment = Segment(self.frame, self.words, boxes)
        self.done.append((self.frame, segment))
        self.frame, self.area, self.words, self.has_rest = Frame(), None, self.beginning(), False

    def colors(self, count: int) -> "array[int]":
        """Returns the colours of the next packets: the channels in turn."""
        first, self.number = self.number % len(STEPS), self.number + count
        return array('I', (STEPS[first:] + STEPS[:first]) * (count // len(STEPS) + 1))[:count]

    def grow(self, x1: int, y1: int, x2: int, y2: int) -> None:
        """Adds an area to that of the frame."""
        old = self.area or (x1, y1, x2, y2)
        self.area = min(old[0], x1), min(old[1], y1), max(old[2], x2), max(old[3], y2)

    def run(self, listed: Listed) -> None:
        """Adds a run."""
        x1, y1, x2, y2 = listed.corners()
        self.frame.packets += len(listed.lines)
        self.has_rest = self.has_rest or bool(listed.lines)
        if x1:
            self.words += covering_run(listed.run, self.colors(listed.run.packets))
            self.grow(min(x1), min(y1), max(x2), max(y2))

    def packet(self, name: str, words: List[int], area: Optional[Area]) -> None:
        """Adds a packet."""
        self.has_rest = True
        if name in DRAWN:
            self.frame.packets += 1
            if area:
                self.words.extend(covering(name, words, self.colors(1)[0]))
                self.grow(*area)
        elif name in (FILL, COPY, LOAD):
            self.frame.packets += 1
            if area:
                self.frame.areas.append(area)
        elif name == ENVIRONMENT and words[0] >> 24 in AREA_WORDS:
            self.set(words[0])

    def set(self, word: int) -> None:
        """Adds a word of E3h to E5h."""
        self.settings[word >> 24] = word & 0xFFFFFF
        self.words.append(word)

    def control(self, word: int) -> bool:
        """Adds a control word: a reset, or the end of a frame. Returns whether a frame has ended."""
        opcode = word >> 24 & 0x3F
        if opcode == 0:
            for setting in AREA_WORDS:
                self.set(setting << 24)
        if opcode == self.ends:
            self.end()
        return opcode == self.ends

    def frames(self) -> Iterator[Tuple[Frame, Optional[Segment]]]:
        """Goes through the recording. Yields the frames, not counted yet."""
        for kind, _, words, _, packets in self.walk.records():
            if kind == GP1:
                self.control(words[0])
            elif kind == GP0:
                for piece in packets:
                    if isinstance(piece, Listed):
                        self.run(piece)
                    else:
                        (name, packet, _), area = piece
                        self.packet(name, packet, area)
            yield from self.done
            self.done = []
        if self.has_rest:
            self.end()
            yield from self.done

    def batches(self) -> Iterator[Tuple[List[Frame], Batch]]:
        """Yields some frames at a time."""
        frames, segments, size = [], [], 0      # type: List[Frame], List[Segment], int
        for frame, segment in self.frames():
            frames.append(frame)
            if segment:
                segments.append(segment)
                size += len(segment.words)
            if size >= BATCH:
                yield frames, Batch(self.walk.is_tall, segments)
                frames, segments, size = [], [], 0
        if frames:
            yield frames, Batch(self.walk.is_tall, segments)

    def counted(self) -> Iterator[Frame]:
        """Yields each frame when all of it is counted. Batches are played side by side, `jobs` at most."""
        program, waiting = self.walk.program, deque()       # type: str, Deque[Waiting]
        with concurrent.futures.ThreadPoolExecutor(self.jobs) as pool:
            for frames, batch in self.batches():
                waiting.append((frames, batch, pool.submit(batch.answers, program)))
                if len(waiting) >= self.jobs:
                    yield from counted_of(waiting.popleft(), program)
            while waiting:
                yield from counted_of(waiting.popleft(), program)


Waiting = Tuple[List[Frame], Batch, "concurrent.futures.Future[List[bytes]]"]


def counted_of(waiting: Waiting, program: str) -> Iterator[Frame]:
    """Yields the frames of a batch."""
    frames, batch, answers = waiting
    batch.count(answers.result(), program)
    yield from frames
