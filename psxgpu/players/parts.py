"""Parts of a long flat capture, for work side by side. A part ends with a frame. The next one continues the recording
from the state that psxgpu_tool has there (`cut`), so its events, packets and pictures are those of the whole."""
from __future__ import annotations

import bisect
import contextlib
import itertools
from typing import IO, Callable, Container, Iterator, List, NamedTuple, Sequence, Tuple, TypeVar, Union

from psxgpu.command import BLOCK, Readable
from psxgpu.errors import ToolError
from psxgpu.packets.split import Splitter
from psxgpu.packing import Pieces
from psxgpu.parallel import results
from psxgpu.players import player
from psxgpu.players.listed import Walk
from psxgpu.snapshot import PACKET, PIXELS, POLYLINE, Pending, state_of, words_left
from psxgpu.stopping import scratch
from psxgpu.stream import GP1, HEADS, Stream, count_of

HEAD, END = 8, bytes(4)
LEAST = 4 << 20             # bytes of a part
LATER = 0.7                 # the size of a part, compared with the one before: what comes before it is played by `cut`
Result = TypeVar('Result')


class Part(NamedTuple):
    """The records of a flat capture between two byte offsets. `events` and `frames`: how many there are before them.
    `name` is what messages call the capture."""
    path: str
    name: str
    begin: int
    end: int
    events: int = 0
    frames: int = 0

    def bytes(self, file: IO[bytes]) -> Iterator[bytes]:
        """Yields the bytes of the records."""
        file.seek(self.begin)
        for at in range(self.begin, self.end, BLOCK):
            yield file.read(min(BLOCK, self.end - at))


def ends_of(path: str, name: str, ends: Container[int]) -> Tuple[List[Tuple[int, int]], int]:
    """Returns the byte offset and the number of events after each control word of these opcodes, and the byte offset of
    the End record. Raises ToolError if the capture is damaged."""
    found, events = [], 0
    with open(path, 'rb') as file:
        stream = Stream(file, name)
        for kind, count, words in stream:
            events += count_of(kind, count)
            if kind == GP1 and words[0] >> 24 & 0x3F in ends:
                found.append((stream.place, events))
        return found, stream.place - len(END)


def cut_between(found: Sequence[Tuple[int, int]], end: int, count: int) -> List[int]:
    """Returns the numbers of the ends after which a capture is cut, for `count` parts at most."""
    sizes = [LATER ** number for number in range(count)]
    offsets = [offset for offset, _ in found]
    wanted = [HEAD + (end - HEAD) * part / sum(sizes) for part in itertools.accumulate(sizes[:-1])]
    numbers = {min(bisect.bisect(offsets, place), len(found) - 1) for place in wanted} if found else set()
    return sorted(number for number in numbers if offsets[number] < end)


def parts_of(path: str, name: str, ends: Container[int], jobs: int, least: int = LEAST) -> List[Part]:
    """Returns the parts of a flat capture, at most `jobs`, and none much shorter than `least` bytes. `ends`: the
    opcodes of the control words that end frames. Raises ToolError if the capture is damaged."""
    found, end = ends_of(path, name, ends)
    places = [(HEAD, 0, 0)]
    for number in cut_between(found, end, max(1, min(jobs, (end - HEAD) // max(1, least)))):
        places.append((*found[number], number + 1))
    return [Part(path, name, begin, after[0], events, frames)
            for (begin, events, frames), after in zip(places, [*places[1:], (end, 0, 0)])]


def resume(splitter: Splitter, pending: Pending) -> None:
    """Gives a splitter what GP0 waits for."""
    kind, words = pending
    if kind == PACKET:
        splitter.words = list(words)
    elif kind == PIXELS:
        splitter.pixels = words_left(words)
    elif kind == POLYLINE:
        splitter.command, splitter.last, splitter.words = words[0], words[1:3], list(words[4:])


class PartWalk(Walk):
    """The records of a part."""

    def __init__(self, part: Part, program: str) -> None:
        super().__init__(part.path, part.name, program)
        self.part, self.before, self.frames = part, part.events, part.frames
        if part.events:
            with player.playing(program, ['cut', str(part.events)], part.path) as run:
                state = state_of(run.out)
            self.head = state.data
            self.splitter.registers = dict(zip(self.splitter.registers, state.registers))
            resume(self.splitter, state.pending)

    @contextlib.contextmanager
    def sources(self) -> Iterator[Tuple[Readable, Union[str, IO[bytes]]]]:
        with open(self.path, 'rb') as file, scratch() as played:
            played.writelines(itertools.chain([self.head], self.part.bytes(file), [END]))
            played.flush()
            played.seek(0)
            pieces = itertools.chain([HEADS[self.version]], self.part.bytes(file), [END])
            yield Pieces(lambda: next(pieces, b'')), played


def over_part(function: Callable[..., Result], part: Part, program: str, more: Tuple[object, ...]) -> Result:
    """Returns what a function returns for the walk over a part."""
    return function(PartWalk(part, program), 1, *more)


def over_parts(function: Callable[..., Result], walk: Walk, ends: Container[int], jobs: int, *more: object,
               least: int = LEAST) -> List[Result]:
    """Returns what `function(walk, jobs, *more)` returns for the walk over each part of a capture, in order. The calls
    run side by side, each with one job. A capture that is short, damaged or refused is one part, without a process.
    `walk`: that over the whole."""
    with contextlib.suppress(ToolError):        # the walk over the whole raises it again
        parts = parts_of(walk.path, walk.name, ends, jobs, least) if jobs > 1 else []
        if len(parts) > 1:
            return list(results(jobs, over_part, [(function, part, walk.program, more) for part in parts]))
    return [function(walk, jobs, *more)]
