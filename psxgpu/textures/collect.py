"""Goes through a flat capture and asks for each texture where it is used and may have changed."""
from __future__ import annotations

import collections
import itertools
from array import array
from typing import Dict, Iterator, List, NamedTuple, Optional, Sequence, Set, Tuple

from psxgpu.packets.grammar import POLYGON, RECTANGLE, SHADED, STORE, TEXTURED
from psxgpu.packets.runs import Run
from psxgpu.players.listed import Area, Listed, Packet, Piece, Walk
from psxgpu.players.questions import Questions
from psxgpu.stream import GP0
from psxgpu.textures.sources import Box, Source, source_of

TILE_W, TILE_H, COLUMNS = 64, 16, 1024
DRAWN = (POLYGON, RECTANGLE)        # packets that may have a texture
Key = Tuple[int, ...]


class Used(NamedTuple):
    """A texture as it was at an event, as cells, and how many packets drew with it then."""
    source: Source
    event: int
    uses: int
    texels: array[int]
    palette: Optional[array[int]]


class Ages:
    """When something was last written to each tile of video memory: the number of a packet, or 0."""

    def __init__(self, rows: int) -> None:
        self.columns, self.rows = COLUMNS // TILE_W, rows // TILE_H
        self.ages = [0] * (self.columns * self.rows)

    def write(self, area: Area, now: int) -> None:
        """Notes a write to an area, both of whose corners are inside."""
        x1, y1, x2, y2 = area
        first, last = x1 // TILE_W, x2 // TILE_W
        for row in range(y1 // TILE_H, y2 // TILE_H + 1):
            at = row % self.rows * self.columns
            if last < self.columns:
                for tile in range(at + first, at + last + 1):
                    self.ages[tile] = now
            else:
                for column in range(first, last + 1):
                    self.ages[at + column % self.columns] = now

    def tiles(self, box: Box) -> List[int]:
        """Returns the tiles of a box."""
        x, y, w, h = box
        return [row % self.rows * self.columns + column % self.columns
                for row in range(y // TILE_H, (y + h - 1) // TILE_H + 1)
                for column in range(x // TILE_W, (x + w - 1) // TILE_W + 1)]

    def area_tiles(self, area: Area) -> List[int]:
        """Returns the tiles of an area."""
        x1, y1, x2, y2 = area
        return self.tiles((x1, y1, x2 - x1 + 1, y2 - y1 + 1))

    def of(self, tiles: List[int]) -> int:
        """Returns when one of these tiles was last written."""
        return max(map(self.ages.__getitem__, tiles))


class Asked:
    """A question: a source at an event. `last`: the number of its last box; `uses` packets drew with it."""

    def __init__(self, source: Source, event: int, age: int, last: int) -> None:
        self.source, self.event, self.age, self.last, self.uses = source, event, age, last, 0


class Place(NamedTuple):
    """A source, its boxes, and the tiles in which they are."""
    source: Source
    boxes: List[Box]
    tiles: List[int]


class Collector:
    """The questions of a capture."""

    def __init__(self, walk: Walk) -> None:
        self.walk, self.questions = walk, Questions(walk.is_tall, walk.head if walk.before else None)
        self.ages = Ages(1024 if walk.is_tall else 512)
        self.places: Dict[Key, Optional[Place]] = {}
        self.latest: Dict[Source, Asked] = {}
        self.first: Dict[Source, int] = {}  # the age of a source when it was first used
        self.asked: List[Asked] = []
        self.packets = 0
        self.tracked: Set[int] = set()      # the tiles of all places
        self.written = 0                    # words of the record that are in the questions

    def place_of(self, name: str, words: List[int]) -> Optional[Place]:
        """Returns where a packet takes its texels from, found once for all packets that are alike."""
        registers = self.walk.registers
        if name == POLYGON:
            key = (registers[0xE1], registers[0xE2], *words[2::3 if words[0] >> 24 & SHADED else 2])
        else:
            key = (registers[0xE1], registers[0xE2], words[0] >> 24, *words[2:])
        if key not in self.places:
            source = source_of(name, words, registers)
            boxes = source.boxes() if source else []
            tiles = [tile for box in boxes for tile in self.ages.tiles(box)]
            self.places[key] = Place(source, boxes, tiles) if source else None
            self.tracked.update(tiles)
        return self.places[key]

    def use(self, place: Place, event: int, uses: int = 1) -> bool:
        """Counts packets that draw with a source. Returns whether it was asked for again, since it may be new."""
        last = self.latest.get(place.source)
        is_new = last is None or last.age < self.ages.of(place.tiles)
        if last is None:
            self.first[place.source] = self.ages.of(place.tiles)
        if last is None or is_new:
            last = Asked(place.source, event, self.packets - 1, len(self.questions.boxes) + len(place.boxes) - 1)
            self.latest[place.source] = last
            self.asked.append(last)
        last.uses += uses
        return is_new

    def ask(self, place: Place, words: Sequence[int], begin: int, end: int) -> None:
        """Asks for a place before the packet of these words; after it if it began in an earlier record."""
        begin = begin if begin >= self.written else end
        self.questions.words(words[self.written:begin])
        self.written = begin
        for box in place.boxes:
            self.questions.ask(box)

    def packet(self, words: Sequence[int], before: int, one: Packet) -> None:
        """Adds a packet, with questions before it if its texture may be new."""
        (name, packet, end), area = one
        self.packets += 1
        if not area:
            return
        if name in DRAWN and packet[0] >> 24 & TEXTURED:
            place = self.place_of(name, packet)
            if place and self.use(place, before + end):
                self.ask(place, words, end - len(packet), end)
        if name != STORE:
            self.ages.write(area, self.packets)

    def alike(self, listed: Listed) -> Dict[Key, Tuple[int, int]]:
        """Returns the textured packets of a run that have an area: the number of the first one of those that are alike,
        and how many they are."""
        run = listed.run
        opcode, length = run.opcodes[0], run.length
        if not opcode & TEXTURED:
            return {}
        places = range(2, length, 3 if opcode & SHADED else 2) if run.name == POLYGON else range(2, length)
        columns = [run.words[place::length] for place in places]
        if run.name == RECTANGLE:
            columns.insert(0, array('I', run.opcodes))
        keys = list(itertools.compress(zip(*columns), listed.has_area))
        numbers = list(itertools.compress(range(run.packets), listed.has_area))
        first = dict(zip(reversed(keys), reversed(numbers)))
        return {key: (first[key], uses) for key, uses in collections.Counter(keys).items()}

    def is_apart(self, listed: Listed) -> bool:
        """Returns whether a run writes no tile of a texture that is known. If so, notes which tiles it writes. The time
        does not matter: a texture there is first used later."""
        x1, y1, x2, y2 = listed.corners()
        tiles = self.ages.area_tiles((min(x1), min(y1), max(x2), max(y2))) if x1 else []
        if not self.tracked.isdisjoint(tiles):
            return False
        if not all(map(self.ages.ages.__getitem__, tiles)):
            for area in zip(x1, y1, x2, y2):
                self.ages.write(area, self.packets + 1)
        return True

    def run(self, words: Sequence[int], before: int, listed: Listed) -> None:
        """Adds a run. If it writes no texture, packets that are alike are added at once."""
        run, first = listed.run, self.packets
        found = self.alike(listed)
        places = {}
        for key, (number, _) in found.items():
            packet = run.packet(number)
            if run.name == POLYGON:
                self.walk.splitter.change(POLYGON, packet)
            places[key] = self.place_of(run.name, packet)
        if not self.is_apart(listed):
            for number, area in enumerate(listed.areas()):
                packet = run.packet(number)
                if run.name == POLYGON:
                    self.walk.splitter.change(POLYGON, packet)
                self.packet(words, before, ((run.name, packet, run.end_of(number)), area))
            return
        for key, (number, uses) in found.items():
            place, end = places[key], run.end_of(number)
            self.packets = first + number + 1
            if place and self.use(place, before + end, uses):
                self.ask(place, words, end - run.length, end)
        self.packets = first + len(listed.lines)

    def record(self, words: Sequence[int], before: int, packets: Iterator[Piece]) -> None:
        """Adds a Gp0 record, with questions before the packets whose textures may be new. `before`: events before it."""
        self.written = 0
        for piece in packets:
            if isinstance(piece, Listed):
                self.run(words, before, piece)
            else:
                self.packet(words, before, piece)
        self.questions.words(words[self.written:])

    def go(self) -> None:
        """Goes through the capture."""
        for kind, count, words, before, packets in self.walk.records():
            if kind == GP0:
                self.record(words, before, packets)
            else:
                self.questions.record(kind, count, words)

    def used(self) -> Iterator[Used]:
        """Yields what was asked for, in the order of its events."""
        asked, held = iter(self.asked), None    # type: Iterator[Asked], Optional[array[int]]
        for number, data in self.questions.answers(self.walk.program):
            cells = array('H', data)
            if held is None:
                one = next(asked)
            if number < one.last:
                held = cells
                continue
            texels, palette = (held, cells) if held is not None else (cells, None)
            held = None
            yield Used(one.source, one.event, one.uses, texels, palette)
