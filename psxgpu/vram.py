"""Video memory as a dump has it: its cells, and the colours of cells and of texels."""
import struct
from typing import List, Optional, Sequence

from psxgpu.command import ToolError

WIDTH = 1024                                # cells of a row of video memory
Cells = Sequence[int]


def cells_of(dump: bytes) -> Cells:
    """Returns the halfwords of a dump. Raises ToolError if it has no rows of 2048 bytes."""
    if not dump or len(dump) % (2 * WIDTH):
        raise ToolError('neither a dump nor a picture: %d bytes%s'
                      % (len(dump), ', not a multiple of 2048' if dump else ''))
    return struct.unpack('<%dH' % (len(dump) // 2), dump)


def wide(cell: int) -> bytes:
    """Returns the three bytes of a cell, as `shot` makes them."""
    channels = (cell & 31, cell >> 5 & 31, cell >> 10 & 31)
    return bytes(8 * channel + channel // 4 for channel in channels)


def shown(cells: Cells) -> bytes:
    """Returns the three bytes of each cell."""
    table = {cell: wide(cell) for cell in set(cells)}
    return b''.join(map(table.__getitem__, cells))


def palette_of(cells: Cells, bits: int, place: Optional[Sequence[int]]) -> List[bytes]:
    """Returns the three bytes of each index: tones of gray, or the cells from `place` on."""
    if place is None:
        return [bytes([index * 255 // ((1 << bits) - 1)] * 3) for index in range(1 << bits)]
    x, y = place
    row = cells[WIDTH * y:WIDTH * (y + 1)]
    if not row:
        raise ToolError('palette y: %d, the dump has %d rows' % (y, len(cells) // WIDTH))
    return [wide(row[(x + index) % WIDTH]) for index in range(1 << bits)]


def texels(cells: Cells, bits: int, palette: List[bytes]) -> bytes:
    """Returns the three bytes of each texel of these cells."""
    shifts = range(0, 16, bits)
    table = {cell: b''.join(palette[cell >> shift & (1 << bits) - 1] for shift in shifts) for cell in set(cells)}
    return b''.join(map(table.__getitem__, cells))
