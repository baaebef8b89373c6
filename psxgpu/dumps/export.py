"""A flat capture as the packets of a GPU dump."""
from __future__ import annotations

from array import array
from dataclasses import dataclass
from typing import Iterable, Iterator

from psxgpu.dumps.cutter import Cutter
from psxgpu.dumps.format import (COMMENT, CYCLES, DISCARD, FORMAT, GAME, GPU_VERSION, HEAD, NEW_1MB, NEW_2MB, PORT1,
                                 TRACE_BEGIN, VSYNC, packet, words_of)
from psxgpu.stream import GP0, GP1, READ, SKIP, little

PIECE = 1 << 16                 # words of a piece of the dump
MARK, FLIP, DIRECTION, INFORMATION = 0x3F, 0x05, 0x04, 0x10


@dataclass
class About:
    """What a dump says of itself, and how it is written.

    `begin`: the first events up to this one restore the state. `flips`: a VSync follows each write of the display start,
    and marks are left out. `all_words`: control words that emulators do not record are kept.
    """
    game: str = 'UNKNOWN'
    video: str = 'NTSC'
    begin: int = 0
    flips: bool = False
    all_words: bool = False


class Export:
    """The bytes of a dump, piece by piece, from the records of a flat capture. `left_out` counts the events that a dump
    cannot have: reads of the status, and control words."""

    def __init__(self, records: Iterable[tuple[int, int, array[int]]], is_tall: bool, about: About) -> None:
        self.records, self.is_tall, self.about = records, is_tall, about
        self.cutter, self.has_begun = Cutter(), False
        self.events, self.frames, self.left_out = 0, 0, 0

    def put(self, kind: int, words: Iterable[int] = ()) -> None:
        """Adds a packet. Words for GP0 of a packet that is not whole come before it."""
        self.cutter.rest()
        self.cutter.out += packet(kind, words)

    def head(self) -> None:
        """Adds the packets that tell what the dump is."""
        self.put(GPU_VERSION, [NEW_2MB if self.is_tall else NEW_1MB])
        self.put(GAME, words_of(self.about.game))
        self.put(FORMAT, words_of(self.about.video))
        self.put(COMMENT, words_of('written by psxgpu to-dump'))
        self.begin_at(0)

    def begin_at(self, event: int) -> None:
        """Adds the trace begin, once, if `event` events are all that restore the state."""
        if not self.has_begun and event >= self.about.begin:
            self.has_begun = True
            self.put(TRACE_BEGIN)

    def vsync(self) -> None:
        """Adds a VSync: its frame is over at this cycle since the beginning."""
        self.frames += 1
        now = self.frames * CYCLES[self.about.video]
        self.put(VSYNC, [now & 0xFFFFFFFF, now >> 32])

    def gp1(self, word: int) -> None:
        """Adds a control word."""
        opcode = word >> 24 & 0x3F
        if opcode == MARK:
            if self.about.flips or not self.has_begun:
                self.left_out += 1
            else:
                self.vsync()
        elif self.about.all_words or opcode < INFORMATION and opcode != DIRECTION:
            self.put(PORT1, [word])
        else:
            self.left_out += 1
        if opcode == FLIP and self.about.flips and self.has_begun:
            self.vsync()

    def gp0(self, words: array[int]) -> None:
        """Adds words for GP0. The trace may begin between them."""
        first = self.about.begin - self.events
        if not self.has_begun and 0 < first < len(words):
            self.cutter.push(words[:first])
            self.begin_at(self.about.begin)
            words = words[first:]
        self.cutter.push(words)

    def add(self, kind: int, count: int, words: array[int]) -> None:
        """Adds a record."""
        events = len(words) if kind == GP0 else count
        if kind == GP0:
            self.gp0(words)
        elif kind == GP1:
            self.gp1(words[0])
        elif kind in (READ, SKIP):
            self.put(DISCARD, [count])
        else:
            self.left_out += count
        self.events += events
        self.begin_at(self.events)

    def take(self) -> bytes:
        """Returns the packets so far."""
        return little(self.cutter.take()).tobytes()

    def __iter__(self) -> Iterator[bytes]:
        self.head()
        yield HEAD + self.take()
        for record in self.records:
            self.add(*record)
            if len(self.cutter.out) > PIECE:
                yield self.take()
        self.cutter.rest()
        self.begin_at(max(self.events, self.about.begin))
        if not self.frames:
            self.vsync()
        yield self.take()
