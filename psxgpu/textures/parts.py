"""The textures of a recording: a long one is gone through in parts, side by side, with the same result."""
from __future__ import annotations

import contextlib
from typing import Dict, List, NamedTuple

from psxgpu.corpus.scan import FLIP, MARK
from psxgpu.players.listed import Walk
from psxgpu.players.parts import LEAST, over_parts
from psxgpu.textures.collect import Ages, Collector
from psxgpu.textures.pixels import Texture, distinct, once_each
from psxgpu.textures.sources import Source


class Collected(NamedTuple):
    """The textures of some packets, how many questions found them, and how many packets there are."""
    textures: List[Texture]
    questions: int
    packets: int


class OfPart(NamedTuple):
    """What was collected in a part. Numbers of packets count from its first. `first`: when the cells of a source were
    last written before its first use, 0 if they were not; `latest`: when it was last asked for; `ages`: when each tile
    of video memory was last written."""
    found: Collected
    first: Dict[Source, int]
    latest: Dict[Source, int]
    ages: List[int]


def of_walk(walk: Walk, _: int, has_half: bool) -> OfPart:
    """Returns what is collected in a walk."""
    collector = Collector(walk)
    with contextlib.closing(collector.questions):
        collector.go()
        found = Collected(distinct(collector.used(), has_half), len(collector.asked), collector.packets)
    return OfPart(found, collector.first, {source: asked.age for source, asked in collector.latest.items()},
                  collector.ages.ages)


class Joined:
    """What was collected in the parts up to one."""

    def __init__(self, is_tall: bool) -> None:
        self.ages, self.latest = Ages(1024 if is_tall else 512), {}     # type: Ages, Dict[Source, int]
        self.textures: List[Texture] = []
        self.questions = self.packets = 0

    def is_known(self, source: Source, written: int) -> bool:
        """Returns whether a source was asked for in an earlier part, and not written since. `written`: as in
        `OfPart.first`."""
        if written or source not in self.latest:
            return False
        return self.latest[source] >= self.ages.of([tile for box in source.boxes() for tile in self.ages.tiles(box)])

    def add(self, part: OfPart) -> None:
        """Adds the next part. What it asked for at first is no question if the answer was known."""
        self.questions += part.found.questions - sum(self.is_known(*pair) for pair in part.first.items())
        self.ages.ages = [self.packets + new if new else old for old, new in zip(self.ages.ages, part.ages)]
        self.latest.update((source, self.packets + age) for source, age in part.latest.items())
        self.textures += part.found.textures
        self.packets += part.found.packets


def collected(walk: Walk, has_half: bool, jobs: int, least: int = LEAST) -> Collected:
    """Returns the textures of a capture. `walk`: that over the whole; `least`: the bytes of a part."""
    joined = Joined(walk.is_tall)
    for part in over_parts(of_walk, walk, (FLIP, MARK), jobs, has_half, least=least):
        joined.add(part)
    return Collected(once_each(joined.textures), joined.questions, joined.packets)
