"""A stretch of a capture: some of its frames, with the state before them, as a capture of its own."""
import struct
from typing import IO, List, NamedTuple, Optional, Tuple

from psxgpu.capture import Capture
from psxgpu.command import ToolError
from psxgpu.console.source import Source
from psxgpu.console.unfinished import Unfinished
from psxgpu.output import writing
from psxgpu.players import player
from psxgpu.stream import GP0, GP1, HEADS, READ, SKIP, Record, Stream, count_of, encode, first_events, later_events

START, MARK = 0x05, 0x3F            # opcodes of GP1 that end a frame
# A snapshot with nothing unfinished: 8 bytes, 3 words, 13 registers, 3 words, and video memory.
REGISTERS, CELLS, DUMP = 8 + 12, 8 + 4 * 19, 1 << 20


class Frames(NamedTuple):
    """Frames of a capture: `number` of them (None: all) after the first `first`."""
    first: int
    number: Optional[int]


def opcode_of(record: Record) -> Optional[int]:
    """Returns the opcode of a record of GP1."""
    return record[2][0] >> 24 & 0x3F if record[0] == GP1 else None


def frame_opcode(flat: Source) -> int:
    """Returns the opcode that ends a frame: a mark if the capture has one, else a write of the display start."""
    with open(flat.path, 'rb') as file:
        return MARK if any(opcode_of(record) == MARK for record in Stream(file, flat.name)) else START


def events_of(flat: Source, frames: Frames) -> Tuple[int, int]:
    """Returns how many events are before a stretch, and how many up to its end. It begins with nothing unfinished: if
    something is after frame `first`, then after it is finished. ToolError if there is no such stretch."""
    opcode, unfinished = frame_opcode(flat), Unfinished()
    events = seen = 0
    begin = 0 if frames.first == 0 else None
    with open(flat.path, 'rb') as file:
        for record in Stream(file, flat.name):
            kind, count, words = record
            events += count_of(kind, count)
            if kind == GP0:
                unfinished.push(words)
            elif kind == GP1:
                unfinished.control(words[0])
            elif kind in (READ, SKIP):
                unfinished.left -= min(count, unfinished.left)
            is_end = opcode_of(record) == opcode
            seen += is_end
            if begin is None and seen >= frames.first and unfinished.is_idle():
                begin = events
            if is_end and frames.number is not None and seen == frames.first + frames.number:
                break
    if seen < frames.first:
        raise ToolError('it has %d frames' % seen)
    if begin is None:
        raise ToolError('what is unfinished after frame %d stays so' % frames.first)
    return begin, events


def state(snapshot: IO[bytes]) -> List[bytes]:
    """Returns the records that make the state of a snapshot."""
    head = snapshot.read(CELLS)
    e1, e2, e3, e4, e5, e6, flags, direction, start, across, down, mode, _ = struct.unpack_from('<13I', head, REGISTERS)
    capture = Capture(2).gp1(0)
    capture.start_from(snapshot.read(DUMP), (e1, e2, e3, e4, e5, e6),
                       (0x08000000 | mode, 0x06000000 | across, 0x07000000 | down, 0x05000000 | start,
                        0x04000000 | direction, 0x03000000 | flags >> 1 & 1))
    if flags & 1:
        capture.gp0(0x1F000000)
    return capture.records


def write_stretch(flat: Source, frames: Frames, path: str) -> None:
    """Writes a stretch of a flat capture as a capture. ToolError if there is none."""
    begin, end = events_of(flat, frames)
    with writing(path) as target, open(flat.path, 'rb') as file:
        target.write(HEADS[2])
        if begin:
            with player.playing(flat.tool, ['cut', str(begin)], flat.path) as run:
                target.write(b''.join(state(run.out)))
        for record in later_events(first_events(Stream(file, flat.name), end), begin):
            target.write(encode(*record))
        target.write(bytes(4))
