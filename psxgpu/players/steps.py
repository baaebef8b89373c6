"""A flat capture as a file of steps, after each of which it can be cut: a step is a packet, the data words that are
together in a load, or a record of another kind."""
import contextlib
import io
import os
import tempfile
from array import array
from dataclasses import dataclass
from typing import IO, Iterable, Iterator, List, Optional, Sequence, Tuple

from psxgpu.command import pour
from psxgpu.packets.parts import Registers
from psxgpu.packets.grammar import FINISH, LINE, POLYLINE
from psxgpu.packets.split import Splitter
from psxgpu.players import player
from psxgpu.stream import GP0, GP1, HEADS, READ, SKIP, Record, Stream, encode

HEAD = 8


@dataclass
class Step:
    """`name` is that of a packet, `pixels` for data words, and None for what is neither; `lines`, how many lines `list`
    has for it; `registers` are those after it."""
    name: Optional[str]
    words: Sequence[int]
    registers: Registers
    lines: int = 0
    kind: int = GP0
    count: int = 1

    def record(self) -> bytes:
        """Returns the step as a record."""
        return encode(self.kind, len(self.words) if self.kind == GP0 else self.count, self.words)


class Cutter:
    """Cuts the records of a flat capture into steps. A polyline is one step, its end word the last of its words. A
    packet with other events between its words becomes several steps: what was there before, without a name, and its
    rest."""

    def __init__(self, is_tall: bool) -> None:
        self.splitter = Splitter(is_tall)
        self.held: List[int] = []
        self.lines, self.is_apart = 0, False

    def words(self, words: Sequence[int]) -> Iterator[Step]:
        """Returns the steps of words for GP0; those of a packet that is not whole are held."""
        begin = 0
        if self.splitter.pixels:
            begin = min(self.splitter.pixels, len(words))
            yield Step('pixels', words[:begin], self.splitter.registers)
        for name, packet, end in self.splitter.push(words):
            self.lines += 1
            self.held.extend(words[begin:end])
            begin = end
            if not (name == LINE and packet[0] >> 24 & POLYLINE):
                yield self.whole(name)
            if self.splitter.pixels:
                begin = min(end + self.splitter.pixels, len(words))
                if begin > end:
                    yield Step('pixels', words[end:begin], self.splitter.registers)
        self.held.extend(words[begin:])

    def whole(self, name: str) -> Step:
        """Returns the step of a packet, from the words that are held."""
        shown = None if self.is_apart else LINE if name == FINISH else name
        step = Step(shown, self.held, self.splitter.registers, self.lines)
        self.held, self.lines, self.is_apart = [], 0, False
        return step

    def rest(self) -> Iterator[Step]:
        """Returns what is held, if another event comes before the packet is whole."""
        if self.held:
            step = Step(None, self.held, self.splitter.registers, self.lines)
            self.held, self.lines, self.is_apart = [], 0, True
            yield step

    def steps(self, stream: Iterable[Record]) -> Iterator[Step]:
        """Returns the steps of a flat capture."""
        for kind, count, words in stream:
            if kind == GP0:
                yield from self.words(words)
                continue
            yield from self.rest()
            if kind == GP1:
                self.splitter.control(words[0])
                self.is_apart = self.is_apart and not self.splitter.is_idle()
            yield Step(None, words, self.splitter.registers, kind=READ if kind == SKIP else kind, count=count)
        yield from self.rest()


class Prefixes:
    """A file that can be made to end after a step. `ends`: the byte offsets after the steps from `first` on."""

    def __init__(self, file: "tempfile._TemporaryFileWrapper[bytes]", ends: Sequence[int], first: int = 0) -> None:
        self.file, self.ends, self.first = file, ends, first

    def place(self, k: int) -> int:
        """Returns the byte offset after step k."""
        return self.ends[k - self.first]

    def data(self, k: int) -> bytes:
        """Returns the bytes of the file up to step k, and End."""
        self.file.seek(0)
        data: bytes = self.file.read(self.place(k))
        return data + bytes(4)

    @contextlib.contextmanager
    def cut(self, k: int) -> Iterator[str]:
        """The path of the file, which ends after step k within the block."""
        self.file.seek(self.place(k))
        kept = self.file.read(4)
        self.put(k, bytes(4))
        try:
            yield self.file.name
        finally:
            self.put(k, kept)

    def put(self, k: int, data: bytes) -> None:
        """Writes bytes after step k."""
        self.file.seek(self.place(k))
        self.file.write(data)
        self.file.flush()


class Steps:
    """The file of steps, which is removed at the end of a `with`. `ends`: the byte offset after each; `lines`: how many
    lines `list` has up to it; `events`: how many events; `states`: the registers after it as an index of `registers`.
    Its version is 1, in tall video memory 3."""

    def __init__(self, file: "tempfile._TemporaryFileWrapper[bytes]", is_tall: bool) -> None:
        self.file, self.is_tall = file, is_tall
        self.ends, self.lines, self.events, self.states = (array('Q', [first]) for first in (HEAD, 0, 0, 0))
        self.registers: List[Tuple[int, ...]] = [(0,) * 6]
        self.changes = self.count = 0
        self.prefixes = Prefixes(file, self.ends)
        self.later: List[IO[bytes]] = []        # files that begin at a later step
        file.write(HEADS[3 if is_tall else 1])

    def add(self, step: Step, data: bytes, changes: int) -> None:
        """Adds a step. `changes`: how often registers were set up to this step."""
        self.file.write(data)
        if changes != self.changes:
            self.changes = changes
            self.registers.append(tuple(step.registers.values()))
        self.ends.append(self.ends[-1] + len(data))
        self.lines.append(self.lines[-1] + step.lines)
        self.events.append(self.events[-1] + (len(step.words) if step.kind == GP0 else step.count))
        self.states.append(len(self.registers) - 1)

    def __enter__(self) -> 'Steps':
        return self

    def __exit__(self, *_: object) -> None:
        for file in (self.file, *self.later):
            file.close()

    def close(self) -> None:
        """Ends the file."""
        self.file.write(bytes(4))
        self.file.flush()
        self.count = len(self.ends) - 1

    def registers_behind(self, k: int) -> Registers:
        """Returns the registers after step k."""
        return dict(zip(range(0xE1, 0xE7), self.registers[self.states[k]]))

    def record(self, k: int) -> Record:
        """Returns step k, from 1: its kind, count and words."""
        self.file.seek(self.ends[k - 1])
        data = self.file.read(self.ends[k] - self.ends[k - 1])
        return next(iter(Stream(io.BytesIO(HEADS[3] + data), 'step %d' % k, exact=True)))

    def ahead(self, program: str, low: int, high: int) -> Prefixes:
        """Returns the steps after `low` up to `high`, after a snapshot of the state that psxgpu_tool has there."""
        file = tempfile.NamedTemporaryFile(prefix='psxgpu')     # pylint: disable=consider-using-with
        self.later.append(file)
        with self.prefixes.cut(low) as path, player.playing(program, ['cut', str(self.events[low])], path) as run:
            pour(run.out, file)
            run.expect_whole()
        shift = file.tell() - 4 - self.ends[low]
        file.seek(-4, os.SEEK_END)
        self.file.seek(self.ends[low])
        file.write(self.file.read(self.ends[high] - self.ends[low]))
        file.write(bytes(4))
        file.flush()
        return Prefixes(file, [self.ends[k] + shift for k in range(low, high + 1)], low)
