"""The grammar of GP0 as docs/CAPTURE.md has it: name and length of each packet, sizes, the end word of a polyline.

Every other module of the package takes these from here."""
from typing import Sequence, Tuple

FILL, POLYGON, LINE, RECTANGLE, COPY, LOAD, STORE, ENVIRONMENT, NOP, IRQ, FINISH = (
    'fill', 'polygon', 'line', 'rectangle', 'copy', 'load', 'store', 'environment', 'nop', 'irq', 'finish')
TRANSFERS = {4: (COPY, 4), 5: (LOAD, 3), 6: (STORE, 3)}
SHADED, POLYLINE, QUAD, TEXTURED, SEMI, RAW = 0x10, 0x08, 0x08, 0x04, 0x02, 0x01
SIZE_CODE = 0x18        # bits of a rectangle's opcode: 0 for a size in a word of its own
RESETS = (0, 1)         # opcodes of GP1 that end what is unfinished
POLYLINE_END = 0x50005000


def entry(opcode: int) -> Tuple[str, int]:
    """Returns the name and the length of the packets of an opcode."""
    kind = opcode >> 5
    if kind == 0:
        return {0x02: (FILL, 3), 0x1F: (IRQ, 1)}.get(opcode, (NOP, 1))
    if kind == 1:
        points, extra = (4 if opcode & QUAD else 3), 1 + bool(opcode & TEXTURED) + bool(opcode & SHADED)
        return POLYGON, points * extra + (not opcode & SHADED)
    if kind == 2:
        return LINE, 4 if opcode & SHADED else 3
    if kind == 3:
        return RECTANGLE, 2 + bool(opcode & TEXTURED) + (opcode & SIZE_CODE == 0)
    if kind == 7:
        return (ENVIRONMENT if 0xE1 <= opcode <= 0xE6 else NOP), 1
    return TRANSFERS[kind]


TABLE = tuple(map(entry, range(256)))


def name_and_length(word: int) -> Tuple[str, int]:
    """Returns the name of the packet that a word begins, as `list` has it, and the number of its words; of a polyline
    those up to its second vertex."""
    return TABLE[word >> 24]


def ends_polyline(word: int) -> bool:
    """Returns whether a word ends a polyline, where a vertex or the colour of one may also come."""
    return word & 0xF000F000 == POLYLINE_END


def cells_of(size: int) -> Tuple[int, int]:
    """Returns width and height of a copy, load or store in cells: a size of 0 is the greatest."""
    return (((size & 0xFFFF) - 1 & 0x3FF) + 1, ((size >> 16) - 1 & 0x1FF) + 1)


def words_of_cells(cells: int) -> int:
    """Returns the number of data words of a transfer of `cells` cells."""
    return (cells + 1) // 2


def data_words(size: int) -> int:
    """Returns the number of data words of a transfer of this size."""
    w, h = cells_of(size)
    return words_of_cells(w * h)


def fill_box(words: Sequence[int]) -> Tuple[int, int, int, int]:
    """Returns the box of a fill in cells: x, y, width, height. In whole steps of 16 cells, x rounded down and the width
    up; a size of 0 is none."""
    return words[1] & 0x3F0, words[1] >> 16 & 0x3FF, (words[2] & 0x3FF) + 15 & ~15, words[2] >> 16 & 0x1FF
