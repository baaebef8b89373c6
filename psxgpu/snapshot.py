"""What a snapshot (`psxgpu_tool cut N`) says of its state, and of what is not finished. docs/CAPTURE.md has its
words."""
import struct
from typing import List, NamedTuple, Sequence, Tuple

from psxgpu.command import Readable, ToolError
from psxgpu.errors import counted
from psxgpu.packets.grammar import name_and_length, words_of_cells

STATE = 3 + 13      # height, events played, registers
NOTHING, PACKET, PIXELS, POLYLINE = range(4)
ONE_BLOCK, LINKED_LIST = 1, 2
ROW, MAIN_MEMORY = 2048, 0x200000       # bytes of a row of video memory, and of main memory
Pending = Tuple[int, Tuple[int, ...]]   # the kind of what GP0 waits for, and its words


class State(NamedTuple):
    """The state with which a snapshot begins: its bytes, rows of video memory, the values of E1h to E6h, and what GP0
    waits for."""
    data: bytes
    rows: int
    registers: Tuple[int, ...]
    pending: Pending


class Words:
    """The words of a snapshot's state, one after another. `data`: the bytes that were read."""

    def __init__(self, file: Readable) -> None:
        self.file, self.data = file, b''
        self.bytes(8)

    def bytes(self, n: int) -> bytes:
        """Returns the next n bytes."""
        data = self.file.read(n)
        if len(data) < n:
            raise ToolError('the snapshot that the player writes is cut')
        self.data += data
        return data

    def take(self, n: int) -> Tuple[int, ...]:
        """Returns the next n words."""
        return struct.unpack('<%dI' % n, self.bytes(4 * n))

    def one(self) -> int:
        """Returns the next word."""
        return self.take(1)[0]


def words_left(job: Sequence[int]) -> int:
    """Returns the missing data words of a load or store, by its x, y, w, h and the number of the next cell."""
    _, _, w, h, cell = job
    return words_of_cells(w * h - cell)


def job_text(job: Sequence[int]) -> str:
    """Returns size and corner of a load or store."""
    return '%d by %d cells at (%d, %d)' % (job[2], job[3], job[0], job[1])


def pending_of(words: Words) -> Pending:
    """Returns what GP0 waits for: of a packet its words; of a load five words; of a polyline command, colour and vertex
    of its last vertex, a flag, and with the flag the next colour."""
    kind = words.one()
    if kind == POLYLINE:
        found = words.take(4)
        return kind, found + words.take(found[3])
    return kind, words.take(words.one()) if kind == PACKET else words.take(5) if kind == PIXELS else ()


def pending_text(words: Words) -> List[str]:
    """Returns what GP0 waits for, as a line."""
    kind, found = pending_of(words)
    if kind == PACKET:
        name, length = name_and_length(found[0])
        return ['a packet: %s %08x, %d of %d words' % (name, found[0], len(found), length)]
    if kind == PIXELS:
        return ['a load of %s: %d data words are missing' % (job_text(found), words_left(found))]
    return ['a polyline %08x: its end word is missing' % found[0]] if kind == POLYLINE else []


def store_text(words: Words) -> List[str]:
    """Returns the store that waits for reads."""
    if not words.one():
        return []
    job = words.take(5)
    return ['a store of %s: it waits for %s' % (job_text(job), counted(words_left(job), 'read'))]


def transfer_text(words: Words) -> List[str]:
    """Returns the transfer of DMA that continues at a turn."""
    kind = words.one()
    if kind == ONE_BLOCK:
        address, left, _, _ = words.take(4)
        return ['a transfer of DMA: %s left at %06x' % (counted(left, 'word'), address)]
    if kind == LINKED_LIST:
        return ['a linked list of DMA: the next node is at %06x' % words.one()]
    return []


def unfinished(file: Readable) -> List[str]:
    """Returns a line for each thing that is not finished after the events of a snapshot."""
    words = Words(file)
    words.take(STATE)
    return pending_text(words) + store_text(words) + transfer_text(words)


def state_of(file: Readable) -> State:
    """Reads the state of a snapshot, up to its first record."""
    words = Words(file)
    rows, _, _, *registers = words.take(STATE)
    pending = pending_of(words)
    store_text(words)
    transfer_text(words)
    words.bytes(ROW * rows + MAIN_MEMORY)
    return State(words.data, rows, tuple(registers[:6]), pending)
