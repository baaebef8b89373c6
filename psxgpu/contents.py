"""What a capture contains, as lines for whoever recorded it."""
import concurrent.futures
import contextlib
import re
import tempfile
from typing import IO, Callable, Dict, Iterable, Iterator, List, NamedTuple, Optional, Tuple

from psxgpu.command import BLOCK, ToolError, reading
from psxgpu.errors import counted
from psxgpu.packets.grammar import POLYLINE
from psxgpu.players import player
from psxgpu.players.flat import flattened
from psxgpu.players.numbering import Ends
from psxgpu.snapshot import unfinished
from psxgpu.stream import (HEADS, KINDS, NOT_FLAT, READ, SKIP, STAT, Record, Stream, count_of, encode, first_events,
                           later_events)

REPORT = re.compile(rb'tap 0((?: \d+)+)\ntap 1((?: \d+)*)\n')      # the first two lines of `report`
CLASSES = ('fills and words that do nothing', 'polygons', 'segments of lines', 'rectangles', 'copies', 'loads',
           'stores', 'settings', 'ends of polylines', 'data words of loads')
LINES, LOADS, STORES, PIXELS = 2, 5, 6, 9       # classes of notes
LISTED = 64                                     # notes whose events `report` has: the last ones
# Bytes of a capture of `slim` for a record of one event, with a word or without, and for its first bytes and End.
WITH_WORD, WITHOUT_WORD, AROUND = 8, 4, 12
WORDLESS = (READ, STAT, SKIP)


class Count:
    """The events of a capture by kind, and the error that ends it."""

    def __init__(self, path: str, name: str) -> None:
        self.by_kind: Dict[int, int] = {}
        self.error: Optional[str] = None
        with reading(path) as file:
            stream = Stream(file, name)
            self.version = stream.version
            try:
                for kind, count, _ in stream:
                    self.by_kind[kind] = self.by_kind.get(kind, 0) + count_of(kind, count)
            except ToolError as error:
                self.error = str(error)
        self.events = sum(self.by_kind.values())

    def lines(self) -> List[str]:
        """Returns the first lines of the report."""
        kinds = ', '.join('%d %s' % (count, KINDS[kind]) for kind, count in sorted(self.by_kind.items()))
        return ['version: %d' % self.version, 'events: %d%s' % (self.events, ': ' + kinds if kinds else '')]


@contextlib.contextmanager
def part_of(path: str, name: str, version: int, cut: Callable[[Iterable[Record]], Iterable[Record]]) -> Iterator[str]:
    """The path of a capture of some records alone: those that `cut` returns."""
    with tempfile.NamedTemporaryFile(prefix='psxgpu') as copy, reading(path) as file:
        copy.write(HEADS[version])
        with contextlib.suppress(ToolError):
            for record in cut(Stream(file, name)):
                copy.write(encode(*record))
        copy.write(bytes(4))
        copy.flush()
        yield copy.name


class Report:
    """What `report` writes of a capture: the number of notes of each class, and events, classes and first words of the
    last ones. `refused`: the line with which the player refuses the capture."""

    def __init__(self, program: str, path: str) -> None:
        with player.playing(program, ['report'], path) as run:
            said = run.out.read()
            status = run.end()
            self.refused = player.failure(status, run.said()) if status else ''
        found = REPORT.match(said)
        if not found and not self.refused:
            raise ToolError('%s report: not a report: %r' % (program, said[:40]))
        self.counts = list(map(int, found[1].split())) if found else []
        numbers = list(map(int, found[2].split())) if found else []
        self.notes = list(zip(numbers[::3], numbers[1::3], numbers[2::3]))

    def packets(self) -> Dict[str, int]:
        """Returns how many notes of each class there are."""
        return {name: count for count, name in zip(self.counts, CLASSES) if count}

    def last_packet(self) -> Optional[int]:
        """Returns the event of the last packet, 0 if there is none, or None if it is not one of the last notes."""
        events = [event for event, kind, _ in self.notes if kind != PIXELS]
        return events[-1] if events else 0 if len(self.notes) < LISTED and not self.refused else None

    def last_idle(self) -> int:
        """Returns an event after which nothing is unfinished at the ports, and no packet follows it; 0 if none is
        known. The capture must be flat."""
        if not self.notes or self.counts[STORES]:
            return 0
        event, kind, head = self.notes[-1]
        return 0 if kind in (LOADS, PIXELS) or kind == LINES and head >> 24 & POLYLINE else event


def unfinished_at(program: str, path: str, events: int) -> List[str]:
    """Returns what is not finished after the last event."""
    if not events:
        return []
    with player.playing(program, ['cut', str(events)], path) as run:
        return unfinished(run.out)


class Slim(NamedTuple):
    """How many events `slim` leaves out of how many, and whether these are of the flat capture."""
    left_out: int
    events: int
    is_flattened: bool


def events_left(size: int, wordless: int) -> int:
    """Returns the events of what `slim` writes, by its bytes: a record of one event each. It keeps all reads:
    `wordless` of its records have no word. Raises ToolError if there is no such number."""
    events, rest = divmod(size - AROUND - WITHOUT_WORD * wordless, WITH_WORD)
    if rest or events < 0:
        raise ToolError('the player writes %d bytes with slim, which is not a capture of single events' % size)
    return events + wordless


def bytes_left(file: IO[bytes]) -> int:
    """Reads a file to its end. Returns the number of bytes."""
    size = 0
    while True:
        block = file.read(BLOCK)
        if not block:
            return size
        size += len(block)


def slimmed(program: str, path: str, count: Count, name: str) -> Optional[Slim]:
    """Returns how many events `slim` leaves out, if the player has that command: the library has not. `count`: what is
    known of a flat capture."""
    if player.is_library(program):
        return None
    with flattened(path, program) as flat:
        if flat != path or count.error:
            count = Count(flat, name)
        with player.playing(program, ['slim'], flat) as run:
            size = bytes_left(run.out)
            run.expect_whole()
    left = events_left(size, sum(count.by_kind.get(kind, 0) for kind in WORDLESS))
    return Slim(count.events - left, count.events, flat != path)


class Contents(NamedTuple):
    """What a capture contains, and its frames by flips. `refused`: the line of psxgpu_tool, if it refuses the capture;
    then what follows is of the `good` events before."""
    records: Count
    frames: int
    refused: str
    good: int
    packets: Dict[str, int]
    unfinished: List[str]
    slim: Optional[Slim]

    @property
    def is_well(self) -> bool:
        """Whether nothing is refused or unfinished."""
        return not (self.refused or self.unfinished)

    def lines(self) -> List[str]:
        """Returns the report."""
        lines = self.records.lines() + ['frames: %d' % self.frames]
        if self.refused:
            lines.append('refused: %s' % self.refused)
            lines.append('what follows is of the %s before' % counted(self.good, 'event'))
        lines.append('packets: ' + (', '.join('%s %d' % pair for pair in self.packets.items()) or 'none'))
        lines += ['not finished: %s' % line for line in self.unfinished] or ['not finished: nothing']
        if self.slim:
            lines.append('slim leaves out: %d of %s%s' % (
                self.slim.left_out, counted(self.slim.events, 'event'), ' of the flat capture' * self.slim.is_flattened))
        return lines

    def as_object(self) -> Dict[str, object]:
        """Returns the same for JSON."""
        return dict(version=self.records.version, events=self.records.events, frames=self.frames,
                    kinds={KINDS[kind]: count for kind, count in sorted(self.records.by_kind.items())},
                    refused=self.refused, good=self.good, packets=self.packets, unfinished=self.unfinished,
                    slim=self.slim._asdict() if self.slim else None)


def played(path: str, name: str, program: str, count: Count) -> Tuple[Report, List[str]]:
    """Returns the report of a capture that is not refused, and what is unfinished at its end. The words after the last
    packet of a flat capture tell it: they alone are played again."""
    report = Report(program, path)
    idle = 0 if count.error or any(kind in count.by_kind for kind in NOT_FLAT) else report.last_idle()
    if report.refused or not idle:
        return report, [] if report.refused else unfinished_at(program, path, count.events)
    with part_of(path, name, count.version, lambda stream: later_events(stream, idle)) as rest:
        return report, unfinished_at(program, rest, count.events - idle)


def contents(path: str, name: str, program: str, jobs: int = 1) -> Contents:
    """Returns what a capture contains. With more than one of `jobs`, `slim` runs beside the others."""
    count = Count(path, name)
    with concurrent.futures.ThreadPoolExecutor(1) as pool:
        slim = pool.submit(slimmed, program, path, count, name) if jobs > 1 and not count.error else None
        try:
            report, rest = played(path, name, program, count)
            if report.refused:
                return refused(path, name, program, count, report.refused)
            frames = len(Ends(program, path, last_packet=report.last_packet()))
        finally:
            if slim and not slim.cancel():
                slim.exception()
        return Contents(count, frames, '', count.events, report.packets(), rest,
                        slim.result() if slim else slimmed(program, path, count, name))


def refused(path: str, name: str, program: str, count: Count, line: str) -> Contents:
    """Returns what a capture contains up to the event that the player refuses, which says so in a line."""
    fault = re.search(r' at event (\d+)', line)
    good = min(count.events, int(fault[1]) - 1) if fault else count.events
    with part_of(path, name, count.version, lambda stream: first_events(stream, good)) as before:
        return Contents(count, len(Ends(program, path)), line, good, Report(program, before).packets(),
                        unfinished_at(program, before, good), slimmed(program, before, Count(before, name), name))
