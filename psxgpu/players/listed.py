"""A flat capture packet by packet, with the areas that `list` has for them."""
from __future__ import annotations

import contextlib
import itertools
from array import array
from typing import IO, Dict, Iterator, List, NamedTuple, Optional, Sequence, Tuple, Union

from psxgpu.command import Readable, ToolError
from psxgpu.packets.runs import Run, pieces
from psxgpu.packets.split import Splitter
from psxgpu.players import player
from psxgpu.stream import GP0, GP1, HEADS, Stream, count_of

Area = Tuple[int, int, int, int]        # both corners inside
# What `Splitter.push` gives (the name, the words, and how many words of the record were taken), and the area or None. A
# plain tuple, since a minute has 1.7 million packets.
Packet = Tuple[Tuple[str, List[int], int], Optional[Area]]
WORDS = 7               # of a line with an area
NO_AREA = b'-\n'        # the end of one without


class Record(NamedTuple):
    """A record (kind, count, words), the number of events before it, and the packets that it completes."""
    kind: int
    number: int
    words: Sequence[int]
    before: int
    packets: Iterator[Piece]


def area_of(line: bytes) -> Optional[Area]:
    """Returns the area of a line of `list`, or None if it has none. Raises ToolError if the line is none of `list`."""
    try:
        _, _, _, x1, y1, x2, y2 = line.split()
        return int(x1), int(y1), int(x2), int(y2)
    except ValueError as error:
        if line.endswith(b' -\n'):
            return None
        raise ToolError('the player lists a line that is not one of `list`: %r' % line[:40]) from error


class Listed:
    """A run, and the lines that `list` has for its packets: fewer if the player stops before. `has_area`: of each line,
    whether it has an area."""

    def __init__(self, run: Run, lines: List[bytes]) -> None:
        self.run, self.lines = run, lines
        self.has_area = [line[-2:] != NO_AREA for line in lines]

    def areas(self) -> List[Optional[Area]]:
        """Returns the areas of the packets."""
        return list(map(area_of, self.lines))

    def corners(self) -> Tuple[List[int], List[int], List[int], List[int]]:
        """Returns x1, y1, x2 and y2 of the packets that have an area."""
        words = b''.join(itertools.compress(self.lines, self.has_area)).split()
        if len(words) % WORDS:
            raise ToolError('the player lists a line that is not one of `list`')
        x1, y1, x2, y2 = (list(map(int, words[at::WORDS])) for at in range(WORDS - 4, WORDS))
        return x1, y1, x2, y2


Piece = Union[Listed, Packet]


class Walk:
    """The records of a flat capture. `registers` are those after the packet that was taken last. `head`: the first
    bytes of the file that the player plays. `before` and `frames`: how many events and frames there are before the
    records."""

    def __init__(self, path: str, name: str, program: str) -> None:
        self.path, self.name, self.program = path, name, program
        with open(path, 'rb') as file:
            self.version = Stream(file, name).version
        self.is_tall: bool = self.version == 3
        self.splitter = Splitter(self.is_tall)
        self.head, self.before, self.frames = HEADS[self.version], 0, 0

    @property
    def registers(self) -> Dict[int, int]:
        """The values of E1h to E6h."""
        registers: Dict[int, int] = self.splitter.registers
        return registers

    def listed(self, words: "array[int]", lines: IO[bytes]) -> Iterator[Piece]:
        """Yields the packets of a record, runs as one. The registers are those before a run."""
        for piece in pieces(self.splitter, words):
            if isinstance(piece, Run):
                yield Listed(piece, list(itertools.islice(lines, piece.packets)))
                continue
            line = next(lines, None)
            if line is None:
                return
            yield piece, area_of(line)

    @contextlib.contextmanager
    def sources(self) -> Iterator[Tuple[Readable, Union[str, IO[bytes]]]]:
        """The bytes of the capture, and what the player plays: its path, or a file."""
        with open(self.path, 'rb') as file:
            yield file, self.path

    def records(self) -> Iterator[Record]:
        """Yields the records. All packets of one have to be taken before the next."""
        before = self.before
        with self.sources() as (file, played), player.playing(self.program, ['list'], played) as listed:
            for kind, count, words in Stream(file, self.name):
                if kind == GP1:
                    self.splitter.control(words[0])
                packets = self.listed(words, listed.out) if kind == GP0 else iter(())
                yield Record(kind, count, words, before, packets)
                before += count_of(kind, count)
