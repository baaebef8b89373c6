"""One machine: its ports, main memory and DMA, what it shows, and its state."""
import ctypes
import threading
from typing import Any, List, Optional, SupportsIndex, Tuple, Union, overload

from psxgpu.machine.library import NO_CELL, SIZE, WORD, Ended, Handle, Missing, RawNote, Refused, check, library
from psxgpu.machine.values import (COLUMNS, ROWS, Buffer, Bytes, Note, Registers, Snapshot, Words, address, bytes_of,
                                   cell_of, note_of, number, room_of, words_of)

CHANNELS, RAM_BYTES = (2, 6), 0x200000


class Machine:
    """A machine. Each call that changes it is one event or several. A bad argument raises TypeError or ValueError
    before anything happens. Threads may share a machine: a call waits for the end of another."""

    # Bytes that are always enough.
    VRAM_ROOM, SAVE_ROOM = 2 * COLUMNS * ROWS[1], 2 * COLUMNS * ROWS[1] + RAM_BYTES + 260

    def __init__(self, tall: bool = False) -> None:
        self._library, self._lock, self._handle = library(), threading.Lock(), Handle()
        self._do('new')
        if tall:
            self.set_tall()

    def _do(self, name: str, *arguments: Any) -> int:
        """Calls the library. Returns the code 0, or NO_CELL. Raises the error of every other code."""
        call = getattr(self._library, name)
        with self._lock:
            code = int(call(self._handle, *arguments))
        if code != NO_CELL:
            check(code, next((it for it in arguments if isinstance(it, Ended)), None))
        return code

    def close(self) -> None:
        """Frees the memory. Every later call is refused."""
        if hasattr(self, '_handle'):
            with self._lock:
                self._library.free(self._handle)

    __del__ = close

    def __enter__(self) -> 'Machine':
        return self

    def __exit__(self, *_: object) -> None:
        self.close()

    def __repr__(self) -> str:
        try:
            return '<psxgpu.Machine: video memory of %d rows>' % self.rows
        except Refused:
            return '<psxgpu.Machine: closed>'

    def __reduce__(self) -> str:
        raise TypeError('a machine is not copied: save() it and load() the snapshot into another')

    def clear(self) -> None:
        """Sets the first state."""
        self._do('clear')

    def set_tall(self) -> None:
        """Extends video memory from 512 to 1024 rows."""
        self._do('set_tall')

    def gp0(self, words: Words) -> None:
        """Feeds words to GP0: a number, numbers, bytes, or a buffer of 4-byte items as an array of numpy's uint32."""
        found = words_of(words)
        self._do('gp0_words', address(found), len(found))

    def gp0_notes(self, words: Words) -> List[Note]:
        """Feeds words to GP0. Returns a Note for each item that they complete. Data words of a load have none."""
        found = words_of(words)
        room, written = (RawNote * max(len(found), 1))(), SIZE()
        self._do('gp0_notes', address(found), len(found), room, len(found), written)
        return [note_of(room[k]) for k in range(written.value)]

    def gp1(self, word: SupportsIndex) -> None:
        """Feeds a word to GP1."""
        self._do('gp1', number(word))

    def _word(self, name: str) -> int:
        word = WORD()
        self._do(name, word)
        return int(word.value)

    def read(self) -> int:
        """Reads the data port. Returns its word."""
        return self._word('read')

    def status(self) -> int:
        """Returns the status word."""
        return self._word('status')

    def skip(self) -> None:
        """Reads the data port and drops the word."""
        self._do('skip')

    def ram(self, start: SupportsIndex, words: Words) -> None:
        """Writes words to main memory, from byte address `start` on, a multiple of 4."""
        first, found = number(start, RAM_BYTES, 'address'), words_of(words)
        if first % 4 or first + 4 * len(found) > RAM_BYTES:
            raise ValueError('address %x for %d words' % (first, len(found)))
        self._do('ram', first, address(found), len(found))

    def dma(self, channel: int, madr: SupportsIndex, bcr: SupportsIndex, chcr: SupportsIndex) -> None:
        """Starts channel 2 or 6 and does the whole transfer. Raises Refused if it has a fault."""
        if channel not in CHANNELS:
            raise ValueError('channel %r' % (channel,))
        self._do('dma', channel, number(madr), number(bcr), number(chcr), Ended())

    def begin(self, madr: SupportsIndex, bcr: SupportsIndex, chcr: SupportsIndex) -> None:
        """Starts channel 2; each turn() moves the next piece."""
        self._do('begin', number(madr), number(bcr), number(chcr), Ended())

    def turn(self) -> None:
        """Moves the next piece of what begin() started."""
        self._do('turn')

    def _bytes(self, name: str, most: int) -> bytes:
        room, written = ctypes.create_string_buffer(most), SIZE()
        self._do(name, room, most, written)
        return ctypes.string_at(room, written.value)

    def _write(self, name: str, into: Buffer) -> int:
        room, written = room_of(into), SIZE()
        self._do(name, room, len(room), written)
        return int(written.value)

    @overload
    def vram(self) -> bytes: ...
    @overload
    def vram(self, into: Buffer) -> int: ...

    def vram(self, into: Optional[Buffer] = None) -> Union[bytes, int]:
        """Returns video memory as bytes: the cells row by row, the low byte of each first. With `into`, writes them
        into that buffer and returns their number. Raises Refused if they do not fit."""
        return self._bytes('vram', self.VRAM_ROOM) if into is None else self._write('vram', into)

    def vram_array(self) -> Any:
        """Returns video memory as an array of numpy, by row and column. Raises Missing without numpy."""
        try:
            import numpy    # pylint: disable=import-outside-toplevel
        except ImportError:
            raise Missing('vram_array needs numpy') from None
        return numpy.frombuffer(self.vram(), '<u2').reshape(-1, COLUMNS)

    def cell(self, x: SupportsIndex, y: SupportsIndex) -> int:
        """Returns one cell of video memory. Raises ValueError for a cell outside of it."""
        place, cell = cell_of(x, y), ctypes.c_uint16()
        if self._do('cell', *place, cell) == NO_CELL:
            number(y, ROWS[0] - 1, 'row')
        return int(cell.value)

    @property
    def rows(self) -> int:
        """The rows of video memory: 512 or 1024."""
        return ROWS[self._do('cell', 0, ROWS[0], ctypes.c_uint16()) != NO_CELL]

    def shape(self) -> Tuple[int, int]:
        """Returns width and height of the shown picture. Raises Refused if it has no pixel."""
        width, height = ctypes.c_uint16(), ctypes.c_uint16()
        self._do('shape', width, height)
        return width.value, height.value

    def picture(self) -> bytes:
        """Returns the shown picture as PPM."""
        width, height = self.shape()
        return self._bytes('picture', 3 * width * height + 32)

    @overload
    def picture_rgba(self) -> bytes: ...
    @overload
    def picture_rgba(self, into: Buffer) -> int: ...

    def picture_rgba(self, into: Optional[Buffer] = None) -> Union[bytes, int]:
        """Returns the shown picture as four bytes a pixel: red, green, blue, 255. With `into`, writes them into that
        buffer and returns their number. Raises Refused if they do not fit."""
        if into is not None:
            return self._write('picture_rgba', into)
        width, height = self.shape()
        return self._bytes('picture_rgba', 4 * width * height)

    def registers(self) -> Registers:
        """Returns the registers."""
        words = (WORD * len(Registers._fields))()
        self._do('registers', words, len(words))
        return Registers(*words)

    def save(self) -> Snapshot:
        """Returns the machine's state as a Snapshot."""
        room, written = ctypes.create_string_buffer(self.SAVE_ROOM), SIZE()
        self._do('save', room, self.SAVE_ROOM, written)
        return Snapshot(ctypes.string_at(room, written.value))

    def load(self, snapshot: Bytes) -> None:
        """Sets the state of a snapshot. If it is none, raises Refused and changes nothing."""
        data = bytes_of(snapshot)
        self._do('load', data, len(data), Ended())
