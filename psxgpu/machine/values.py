"""Arguments and results of `psxgpu.machine`: words, bytes, snapshots, registers, notes."""
import array
import ctypes
import operator
import os
import struct
from typing import Any, Iterable, NamedTuple, Optional, SupportsIndex, Tuple, Union

from psxgpu.machine.library import WORD, RawNote
from psxgpu.output import write_whole

Bytes = Union[bytes, bytearray, memoryview]
Words = Union[SupportsIndex, Iterable[int], Bytes]
Path = Union[str, 'os.PathLike[str]']
Buffer = Any            # a writable one: a bytearray, an array of numpy
COLUMNS, ROWS = 1024, (512, 1024)
WORD_FORMATS = tuple(order + letter for order in ('', '@', '=', '<') for letter in 'ILil')


def number(value: SupportsIndex, most: int = 0xFFFFFFFF, name: str = 'word') -> int:
    """Returns a whole number. Raises ValueError with `name` if it is not from 0 to `most`."""
    value = operator.index(value)
    if not 0 <= value <= most:
        raise ValueError('%s %d is not in 0 to %d' % (name, value, most))
    return value


def cell_of(x: SupportsIndex, y: SupportsIndex) -> Tuple[int, int]:
    """Returns a cell. Raises ValueError if no video memory has it."""
    return number(x, COLUMNS - 1, 'column'), number(y, ROWS[1] - 1, 'row')


def buffer_of(words: Any) -> Optional[bytes]:
    """Returns the bytes of words that are bytes or a buffer of 4-byte numbers; None for words of another kind."""
    try:
        view = memoryview(words)
    except TypeError:
        return None
    is_bytes = isinstance(words, (bytes, bytearray, memoryview)) and view.itemsize == 1
    return view.tobytes() if is_bytes or view.itemsize == 4 and view.format in WORD_FORMATS else None


def words_of(words: Words) -> "array.array[int]":
    """Returns an array of words of 32 bits: of one number, of numbers, of a buffer of 4-byte numbers, or of bytes, the
    low byte of each word first."""
    data = buffer_of(words)
    if data is not None:
        found = array.array('I')
        found.frombytes(data)       # ValueError if they are not words of four bytes
        return found
    numbers = words if isinstance(words, Iterable) else [number(words)]     # arrays of numpy are of both kinds
    try:
        return array.array('I', numbers)
    except OverflowError:
        raise ValueError('a word is not in 0 to 4294967295') from None


def address(words: "array.array[int]") -> int:
    """Returns the address of words. The one of no words is not null either."""
    return words.buffer_info()[0] or ctypes.addressof(NO_WORDS)


NO_WORDS = WORD()


def room_of(buffer: Buffer) -> "ctypes.Array[ctypes.c_char]":
    """Returns a caller's buffer for a call of the library. Raises TypeError if it cannot be written to."""
    view = memoryview(buffer).cast('B')
    return (ctypes.c_char * view.nbytes).from_buffer(view)


def bytes_of(data: Bytes) -> bytes:
    """Returns bytes as such."""
    return data if isinstance(data, bytes) else memoryview(data).tobytes()


class Snapshot(bytes):
    """A machine's state: the bytes of a file that `psxgpu_tool` plays."""

    def __repr__(self) -> str:
        return '<psxgpu.Snapshot: event %d, %d bytes>' % (self.events, len(self))

    @classmethod
    def read(cls, path: Path) -> "Snapshot":
        """Returns the snapshot of a file."""
        with open(path, 'rb') as file:
            return cls(file.read())

    def write(self, path: Path) -> None:
        """Writes the snapshot to a file, which appears when it is whole."""
        write_whole(os.fspath(path), self)

    @property
    def rows(self) -> int:
        """The rows of video memory: 512 or 1024."""
        return int(struct.unpack_from('<I', self, 8)[0])

    @property
    def events(self) -> int:
        """The number of events that were played."""
        return int(struct.unpack_from('<Q', self, 12)[0])


class Registers(NamedTuple):
    """The registers as words: the values of E1h to E6h, flags (bit 0 interrupt, bit 1 display off), and what GP1 has
    set. The latch is the word that a read of the data port returns."""
    draw_mode: int
    texture_window: int
    area_start: int
    area_end: int
    offset: int
    mask_setting: int
    flags: int
    dma_direction: int
    display_start: int
    horizontal_range: int
    vertical_range: int
    display_mode: int
    latch: int


class Note(NamedTuple):
    """An item that has taken effect: the event that completed it, its class (docs/CAPTURE.md), its first word, the
    corners (x1, y1, x2, y2) of the cells that it may change, or None, and the index of its last word in the call."""
    event: int
    class_number: int
    head: int
    area: Optional[Tuple[int, int, int, int]]
    word: int


def note_of(raw: RawNote) -> Note:
    """Returns a note of the library as one of Python."""
    area = (raw.x1, raw.y1, raw.x2, raw.y2) if raw.has_area else None
    return Note(raw.event, raw.class_number, raw.head, area, raw.word)
