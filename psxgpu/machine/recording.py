"""A capture or a snapshot to iterate over: its records, its packets, its frames."""
from __future__ import annotations

import io
import os
from array import array
from dataclasses import dataclass
from typing import Iterator, List, NamedTuple, Optional, Tuple, Union

from psxgpu.machine.gpu import Machine
from psxgpu.machine.library import NO_PICTURE, Refused
from psxgpu.machine.playing import data_of, play
from psxgpu.machine.values import Bytes, Path, Snapshot
from psxgpu.records import (BEGIN, DMA, END, GP0, GP1, HEADS, KINDS, RAM, READ, SKIP, SNAPSHOT, STAT, TURN, count_of,
                            encode, first_events, later_events)
from psxgpu.records import events as events_of
from psxgpu.stream import Stream

FLIP, MARK = 0x05, 0x3F         # opcodes of GP1 that end a frame
END_BYTES = 4                   # of the End record, which is the last of a snapshot that a machine saves


@dataclass(frozen=True)
class Record:
    """A record of a capture: its kind (`psxgpu.capture` has a name for each number), its count, and its words as an
    array. The words of a Ram record begin with the address. docs/CAPTURE.md has the format."""
    kind: int
    count: int
    words: array[int]

    @property
    def name(self) -> str:
        """The name of the kind, as `Gp0`."""
        return KINDS[self.kind]

    @property
    def events(self) -> int:
        """The number of events."""
        return count_of(self.kind, self.count)

    def play(self, machine: Machine) -> List[int]:
        """Plays it on a machine. Returns the words that are read and shown."""
        kind, count, words = self.kind, self.count, self.words
        if kind == GP0:
            machine.gp0(words)
        elif kind == GP1:
            machine.gp1(words[0])
        elif kind == RAM:
            machine.ram(words[0], words[1:])
        elif kind == DMA:
            machine.dma(count, *words)
        elif kind == BEGIN:
            machine.begin(*words)
        elif kind in (READ, STAT):
            read = machine.read if kind == READ else machine.status
            return [read() for _ in range(count)]
        elif kind in (TURN, SKIP):
            step = machine.turn if kind == TURN else machine.skip
            for _ in range(count):
                step()
        return []


class Packet(NamedTuple):
    """A packet, as `psxgpu_tool list` has it: the event that completed it, its name, its first word, and the corners
    (x1, y1, x2, y2) of the cells that it may change, or None."""
    event: int
    name: str
    head: int
    area: Optional[Tuple[int, int, int, int]]


class Frame(NamedTuple):
    """A shown picture: the event that shows it (for the one after the end, one more than there are), its size, and its
    pixels row by row: red, green, blue and 255."""
    event: int
    width: int
    height: int
    rgba: bytes


def packet_of(line: str) -> Packet:
    """Returns the packet of a line of `list`."""
    event, name, head, *corners = line.split()
    x1, y1, x2, y2 = map(int, corners) if len(corners) == 4 else (0, 0, 0, 0)
    return Packet(int(event), name, int(head, 16), (x1, y1, x2, y2) if len(corners) == 4 else None)


class Recording:
    """A capture or a snapshot, given as a path or as bytes. A path may also be that of a GPU dump, and of a packed file
    (.gz, .xz, .zst). Raises ValueError if such a file is damaged."""

    def __init__(self, source: Union[Path, Bytes]) -> None:
        self.name = os.fsdecode(source) if isinstance(source, (str, os.PathLike)) else 'the recording'
        self.data = data_of(source)

    def __repr__(self) -> str:
        return '<psxgpu.Recording: %s, %d bytes>' % (self.name, len(self.data))

    def machine(self) -> Machine:
        """Returns a new machine in the state in which the recording begins."""
        machine = Machine(tall=self.data.startswith(HEADS[3]))
        if self.data.startswith(SNAPSHOT):
            machine.load(self.data)
        return machine

    def _stream(self) -> Stream:
        """Returns the records as they are read. Those of a snapshot follow its state."""
        if not self.data.startswith(SNAPSHOT):
            return Stream(io.BytesIO(self.data), self.name)
        with self.machine() as machine:
            first = len(machine.save()) - END_BYTES
        stream = Stream(io.BytesIO(HEADS[2] + self.data[first:]), self.name)
        stream.before = first       # for the bytes that messages name
        return stream

    def records(self) -> Iterator[Record]:
        """Yields the records up to End. Neighbouring Gp0 records of one word come as one. Raises ValueError if the
        recording is cut or bad, after the records before that."""
        for kind, count, words in self._stream():
            yield Record(kind, count, words)

    def cut(self, events: int) -> bytes:
        """Returns the snapshot that `psxgpu_tool cut` writes: the state after the first `events` events, and a record for
        each of the others. Raises as `records` does, Refused if the machine refuses an event, and ValueError if there
        are not so many."""
        with self.machine() as machine:
            count = 0
            for record in first_events(self._stream(), events):
                Record(*record).play(machine)
                count += count_of(*record[:2])
            if count < events:
                raise ValueError('%s: cut at event %d, of %d' % (self.name, events, count))
            state = machine.save()[:-END_BYTES]
        rest = events_of((kind, count, list(words)) for kind, count, words in later_events(self._stream(), events))
        return b''.join([state, *(encode(*record) for record in rest), encode(END, 0)])

    def packets(self) -> Iterator[Packet]:
        """Yields the packets, also those that DMA brings. Raises Refused if the machine refuses the recording, after
        the packets before that."""
        refusal = None
        try:
            lines = play(self.data, 'list')
        except Refused as bad:
            refusal, lines = bad, bad.output
        for line in io.StringIO(lines.decode()):
            yield packet_of(line)
        if refusal:
            raise refusal

    def frames(self, marks: bool = False) -> Iterator[Frame]:
        """Yields the pictures that `psxgpu_tool frames` writes: after each flip and after the end; or, with `marks`,
        after each mark. Raises as `records` does, and Refused if the machine refuses an event."""
        ends = MARK if marks else FLIP
        with self.machine() as machine:
            event = Snapshot(self.data).events if self.data.startswith(SNAPSHOT) else 0
            for record in self.records():
                record.play(machine)
                event += record.events
                if record.kind == GP1 and record.words[0] >> 24 & 0x3F == ends:
                    yield from picture(machine, event)
            if not marks:
                yield from picture(machine, event + 1)


def picture(machine: Machine, event: int) -> Iterator[Frame]:
    """Yields the shown picture, unless it has no pixel."""
    try:
        width, height = machine.shape()
    except Refused as bad:
        if bad.code != NO_PICTURE:
            raise
        return
    yield Frame(event, width, height, machine.picture_rgba())
