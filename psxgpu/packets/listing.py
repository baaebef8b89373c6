"""The entries of a capture in order: packets as `list` writes them with their fields, and events at the ports."""
import contextlib
import io
import itertools
import re
from array import array
from typing import IO, Iterable, Iterator, List, NamedTuple, Optional, Sequence, Union

from psxgpu.command import ToolError, reading
from psxgpu.packets.control import control
from psxgpu.packets.fields import fields
from psxgpu.packets.parts import Registers
from psxgpu.packets.grammar import COPY, ENVIRONMENT, FILL, FINISH, IRQ, LINE, LOAD, NOP, POLYGON, RECTANGLE, STORE
from psxgpu.packets.run_texts import HEADS, PolygonLines
from psxgpu.packets.runs import Run, pieces
from psxgpu.packets.split import Splitter
from psxgpu.players import player
from psxgpu.players.flat import is_flat
from psxgpu.stream import BEGIN, DMA, GP0, GP1, KINDS, RAM, SKIP, STAT, Record, Stream, count_of

CONTROL = KINDS[GP1].lower()
# The names that entries can have: those of packets, and of events at the ports.
NAMES = (FILL, POLYGON, LINE, RECTANGLE, COPY, LOAD, STORE, ENVIRONMENT, NOP, IRQ, FINISH,
         *(kind.lower() for number, kind in enumerate(KINDS) if number > GP0))


class Entry(NamedTuple):
    """An entry: a packet or an event at a port. `registers` are those after the packet. They change when the next entry
    is taken. `rows`: of video memory."""
    event: int
    name: str
    area: str
    line: str
    words: Sequence[int]
    rows: int
    registers: Optional[Registers] = None

    def fields(self) -> List[str]:
        """Returns the other lines of the entry."""
        if self.registers is not None:
            return fields(self.name, self.words, self.registers, self.rows)
        return [control(self.words[0], self.rows)] if self.name == CONTROL else []


class Together:
    """The entries of a run, and their lines of `list`: fewer than packets if the player stops before."""

    def __init__(self, run: Run, lines: List[str], polygons: PolygonLines, capture: str) -> None:
        self.run, self.lines, self.polygons, self.capture = run, lines, polygons, capture

    def texts(self) -> Optional[List[str]]:
        """Returns the entries as lines with their fields. None: they have to be looked at one by one."""
        return self.polygons.texts(self.run, self.lines) if self.run.name == POLYGON else None

    def events(self) -> Sequence[int]:
        """Returns the events of the first and of the last entry."""
        first, last = self.entry(0).event, self.entry(len(self.lines) - 1).event
        return first, last

    def entry(self, number: int) -> Entry:
        """Returns an entry, without the registers after it."""
        return packet_entry(self.lines[number], self.run.packet(number), self.polygons.splitter, self.capture)

    def entries(self, numbers: Optional[Iterable[int]] = None) -> Iterator[Entry]:
        """Returns the entries, or those of some numbers, with the registers after each."""
        splitter = self.polygons.splitter
        for number in range(len(self.lines)) if numbers is None else numbers:
            if self.run.name == POLYGON:
                splitter.change(POLYGON, self.run.packet(number))
            yield self.entry(number)


Part = Union[Entry, Together]


def one_by_one(parts: Iterable[Part]) -> Iterator[Entry]:
    """Returns the entries of parts."""
    for part in parts:
        if isinstance(part, Together):
            yield from part.entries()
        else:
            yield part


def until_fault(records: Iterable[Record]) -> Iterator[Record]:
    """Returns the records of a capture. One that is cut or bad ends early: the player says so."""
    with contextlib.suppress(ToolError):
        yield from records


class Listing:
    """The entries of a capture by event. `refusal`: what the player says of a capture that it refuses."""

    def __init__(self, path: str, name: str, program: str) -> None:
        self.path, self.name, self.player = path, name, program
        self.refusal: Optional[str] = None
        self.last_event: Optional[int] = None

    def packets(self, words: "array[int]", lines: Iterator[str], polygons: PolygonLines) -> Iterator[Part]:
        """Returns the packets that words complete, as far as the player lists them."""
        for piece in pieces(polygons.splitter, words):
            if isinstance(piece, Run):
                some = list(itertools.islice(lines, piece.packets))
                if some:
                    yield Together(piece, some, polygons, self.name)
                continue
            line = next(lines, None)
            if line is None:
                return
            yield packet_entry(line, piece[1], polygons.splitter, self.name)

    def entries(self, flat: IO[bytes], has_ports: bool) -> Iterator[Part]:
        """Returns the packets of a flat capture and, if asked for, its events at the ports. Raises ToolError if the
        player's list is not that of the words."""
        stream, event = Stream(flat, self.name), 1
        splitter = Splitter(stream.version == 3)
        polygons = PolygonLines(splitter)
        with player.playing(self.player, ['list'], self.path) as listed:
            lines = io.TextIOWrapper(listed.out, 'utf-8', 'replace', '\n')
            for kind, count, words in until_fault(stream.gathered()):
                if kind == GP0:
                    yield from self.packets(words, lines, polygons)
                    event += count
                    continue
                if kind == GP1:
                    splitter.control(words[0])
                if has_ports:
                    yield port_entry(event, kind, count, words, splitter.rows)
                event += count_of(kind, count)
            if listed.end():
                self.refuse(listed.said().decode(errors='replace'))

    def refuse(self, said: str) -> None:
        """Keeps what the player said, and the event of its fault."""
        self.refusal = said
        event = re.search(r'at event (\d+)', said)
        self.last_event = int(event[1]) if event else 0

    def ports(self) -> Iterator[Entry]:
        """Returns the events that are neither words for GP0 nor for main memory."""
        event = 1
        with reading(self.path) as file:
            stream = Stream(file, self.name)
            rows = Splitter(stream.version == 3).rows
            for kind, count, words in until_fault(stream):
                if kind not in (GP0, RAM):
                    yield port_entry(event, kind, count, words, rows)
                event += count_of(kind, count)

    def merged(self, packets: Iterator[Entry]) -> Iterator[Entry]:
        """Returns the packets and the events at the ports by event. A DMA start comes before its packets."""
        ports = self.ports()
        port = next(ports, None)
        for packet in packets:
            while port and port.event <= packet.event:
                yield port
                port = next(ports, None)
            yield packet
        while port and (self.last_event is None or port.event <= self.last_event):
            yield port
            port = next(ports, None)

    def parts(self) -> Iterator[Part]:
        """Returns the entries, with runs as one part where events are those of a flat capture."""
        if is_flat(self.path):
            with reading(self.path) as file:
                yield from self.entries(file, True)
        else:
            with player.playing(self.player, ['flat'], self.path) as run:
                yield from self.merged(one_by_one(self.entries(run.out, False)))

    def __iter__(self) -> Iterator[Entry]:
        return one_by_one(self.parts())


def packet_entry(line: str, words: List[int], splitter: Splitter, capture: str) -> Entry:
    """Returns the entry of a packet. Raises ToolError if the player's line is not that of the words."""
    try:
        event, name, word, area = line.split(' ', 3)
        if word == HEADS[words[0]]:
            return Entry(int(event), name, area, line[:-1], words, splitter.rows, splitter.registers)
    except ValueError:
        pass
    raise ToolError('%s: the player lists `%s` and not a packet of %08x' % (capture, line.strip()[:60], words[0]))


def port_entry(event: int, kind: int, count: int, words: Sequence[int], rows: int) -> Entry:
    """Returns the entry of an event at the ports. `rows`: of video memory."""
    name = KINDS[kind].lower()
    line = '%d %s' % (event, name)
    if kind == GP1:
        line += ' %08x' % words[0]
    elif kind in (DMA, BEGIN):
        madr, bcr, chcr = words
        line += ' %d madr %08x bcr %08x chcr %08x' % (count, madr, bcr, chcr)
    elif kind not in (STAT, SKIP) or count != 1:
        line += ' %d' % count
    return Entry(event, name, '', line, words, rows)


def holds(area: str, cell: Sequence[int]) -> bool:
    """Returns whether an area, which may continue at the opposite edge, has a cell. `area`: as `list` has it."""
    corners = area.split()
    if len(corners) != 4:
        return False
    (x1, y1, x2, y2), (x, y) = map(int, corners), cell
    return any(x1 <= x + turn <= x2 for turn in (0, 1024)) and any(y1 <= y + turn <= y2 for turn in (0, 512, 1024))
