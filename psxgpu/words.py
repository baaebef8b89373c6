"""The words of packets and control words, from numbers with names.

Each function gives a list of words. A number that does not fit its field is a ValueError that names the field.
A colour is a number whose lowest byte is red, the next green, the next blue: 0x0000FF is red.
"""
from typing import Iterable, List, Optional, Sequence, Tuple, Union

from psxgpu.packets.grammar import POLYLINE_END
from psxgpu.packets.parts import polygon_words

Point = Tuple[int, int]
Color = Union[int, Sequence[int]]       # one, or one for each point


def within(field: str, value: int, low: int, high: int) -> int:
    """Returns `value`. Raises ValueError with the name `field` if it is not from `low` to `high`."""
    if not isinstance(value, int) or not low <= value <= high:
        raise ValueError('%s: %r is not a number from %d to %d' % (field, value, low, high))
    return int(value)


def stepped(field: str, value: int, step: int, high: int) -> int:
    """Returns `value` as a number of steps. Raises ValueError if it is not a multiple of `step` from 0 to `high`."""
    if within(field, value, 0, high) % step:
        raise ValueError('%s: %d is not a multiple of %d' % (field, value, step))
    return value // step


def bits(field: str, value: int, width: int) -> int:
    """Returns `value`. Raises ValueError if it does not fit `width` bits."""
    return within(field, value, 0, (1 << width) - 1)


# Words of a packet.

def place(field: str, x: int, y: int) -> int:
    """Returns the word of a corner of a fill or transfer."""
    return bits(field + ' y', y, 10) << 16 | bits(field + ' x', x, 10)


def size(field: str, w: int, h: int, most_w: int = 1024, most_h: int = 512) -> int:
    """Returns the word of a size in cells."""
    return within(field + ' height', h, 0, most_h) << 16 | within(field + ' width', w, 0, most_w)


def corner(x: int, y: int) -> int:
    """Returns a word with X in its low and Y in its high half."""
    return bits('corner y', y, 16) << 16 | bits('corner x', x, 16)


def vertex(x: int, y: int) -> int:
    """Returns the word of a vertex: X and Y from -1024 to 1023."""
    return (within('vertex y', y, -1024, 1023) & 0x7FF) << 16 | within('vertex x', x, -1024, 1023) & 0x7FF


def texcoord(u: int, v: int, attribute: int = 0) -> int:
    """Returns the word of a texture coordinate: U, V, and the attribute of a palette or of a page."""
    return bits('texcoord attribute', attribute, 16) << 16 | bits('texcoord v', v, 8) << 8 | bits('texcoord u', u, 8)


def clut(x: int, y: int) -> int:
    """Returns the attribute of a palette whose first cell is (x, y), x being a multiple of 16."""
    return bits('palette y', y, 9) << 6 | stepped('palette x', x, 16, 1008)


def texture_page(x: int, y: int, depth: int, blend: int = 0) -> int:
    """Returns the attribute of a texture page: x a multiple of 64; y 0 or 256, in tall video memory also 512 or 768;
    depth 0, 1, 2 for 4, 8, 15 bits; blend the semi-transparency from 0 to 3."""
    row = stepped('page y', y, 256, 768)
    return (stepped('page x', x, 64, 960) | (row & 1) << 4 | bits('page blend', blend, 2) << 5
            | bits('page depth', depth, 2) << 7 | row >> 1 << 11)


# Packets.

def nop() -> List[int]:
    """Returns a word that does nothing."""
    return [0]


def interrupt() -> List[int]:
    """Returns the word that sets the interrupt bit."""
    return [0x1F000000]


def fill(color: int, x: int, y: int, w: int, h: int) -> List[int]:
    """Returns a fill. x and w are multiples of 16, and h is at most 511. A width of 1024 is written as 1023, which is
    rounded up."""
    size('fill', w, h, 1024, 511)
    return [0x02000000 | bits('fill color', color, 24), place('fill', x, y), h << 16 | min(w, 1023)]


def copy(from_x: int, from_y: int, x: int, y: int, w: int, h: int) -> List[int]:
    """Returns a copy of w by h cells within video memory."""
    return [0x80000000, place('copy source', from_x, from_y), place('copy target', x, y), size('copy', w, h)]


def load(x: int, y: int, w: int, h: int, cells: Iterable[int]) -> List[int]:
    """Returns a load with its data words: w * h cells, row after row."""
    cells = list(cells)
    if len(cells) != w * h:
        raise ValueError('load cells: %d for %d by %d' % (len(cells), w, h))
    if cells and not 0 <= min(cells) <= max(cells) <= 0xFFFF:
        raise ValueError('load cells: one is not a number from 0 to 65535')
    cells += [0] * (len(cells) % 2)
    return [0xA0000000, place('load', x, y), size('load', w, h)] + [
        low | high << 16 for low, high in zip(cells[::2], cells[1::2])]


def store(x: int, y: int, w: int, h: int) -> List[int]:
    """Returns the packet that opens a store; (w * h + 1) // 2 reads take it."""
    return [0xC0000000, place('store', x, y), size('store', w, h)]


def colors_of(name: str, color: Color, points: int) -> Tuple[bool, List[int]]:
    """Returns whether a packet is shaded, and a colour for each of its points."""
    shaded = not isinstance(color, int)
    colors = [color] * points if isinstance(color, int) else list(color)
    if len(colors) != points:
        raise ValueError('%s color: %d for %d points' % (name, len(colors), points))
    return shaded, [bits(name + ' color', one, 24) for one in colors]


def polygon(vertices: Sequence[Point], color: Color = 0, texture: Optional[Sequence[Point]] = None, page: int = 0,
            palette: int = 0, semi: bool = False, raw: bool = False) -> List[int]:
    """Returns a polygon of 3 or 4 vertices (x, y). color: one, or a list with one for each vertex (shaded).
    texture: a list of (u, v), one for each vertex; page and palette are attributes."""
    within('polygon vertices', len(vertices), 3, 4)
    shaded, colors = colors_of('polygon', color, len(vertices))
    if texture is not None and len(texture) != len(vertices):
        raise ValueError('polygon texture: %d texcoords for %d vertices' % (len(texture), len(vertices)))
    opcode = 0x20 | shaded << 4 | (len(vertices) == 4) << 3 | (texture is not None) << 2 | bool(semi) << 1 | bool(raw)
    attributes = (palette, page, 0, 0)
    return polygon_words(opcode, [vertex(*point) for point in vertices], colors if shaded else colors[:1],
                         [texcoord(*point, attribute) for point, attribute in zip(texture or (), attributes)])


def line(points: Sequence[Point], color: Color = 0, semi: bool = False) -> List[int]:
    """Returns a line: 2 points are a line, more are a polyline with its end word. color: one, or a list with one for
    each point."""
    if len(points) < 2:
        raise ValueError('line points: %d, and two are the least' % len(points))
    shaded, colors = colors_of('line', color, len(points))
    many = len(points) > 2
    words = [(0x40 | shaded << 4 | many << 3 | bool(semi) << 1) << 24 | colors[0]]
    for i, point in enumerate(points):
        if shaded and i:
            words.append(colors[i])
        words.append(vertex(*point))
    return words + ([POLYLINE_END] if many else [])


def rectangle(color: int, x: int, y: int, w: int, h: int, texture: Optional[Point] = None, palette: int = 0,
              semi: bool = False, raw: bool = False) -> List[int]:
    """Returns a rectangle. w and h of 1, 8 or 16 each take the short packet. texture: (u, v) of the top left cell; the
    page is E1h's."""
    code = {(1, 1): 1, (8, 8): 2, (16, 16): 3}.get((w, h), 0)
    opcode = 0x60 | code << 3 | (texture is not None) << 2 | bool(semi) << 1 | bool(raw)
    words = [opcode << 24 | bits('rectangle color', color, 24), vertex(x, y)]
    if texture is not None:
        words.append(texcoord(*texture, attribute=palette))
    return words + ([] if code else [size('rectangle', w, h, 1023, 511)])
