"""A packet as a call of psxgpu.capture, with names for the fields."""
from __future__ import annotations

from typing import Callable, Dict, List, Sequence, Tuple

from psxgpu import capture
from psxgpu.packets.parts import line_parts, polygon_parts, rectangle_parts, signed, texcoord_of
from psxgpu.packets.grammar import COPY, ENVIRONMENT, FILL, LINE, LOAD, POLYGON, RAW, RECTANGLE, SEMI, SHADED, STORE
from psxgpu.packets.texels import page_corner, palette_corner
from psxgpu.reduce.loads import load_parts
from psxgpu.reduce.units import Unit

INDENT = '    '
Arguments = List[Tuple[str, str]]


def color(word: int) -> str:
    """Returns a colour as the functions of `capture` take it."""
    return '0x%06X' % (word & 0xFFFFFF)


def call(name: str, arguments: Arguments) -> str:
    """Returns a call with named arguments."""
    return '%s(%s)' % (name, ', '.join('%s=%s' % pair if pair[0] else pair[1] for pair in arguments))


def page_text(page: int) -> str:
    """Returns the call that makes a page's attribute."""
    x, y = page_corner(page)
    return call('texture_page', [('x', str(x)), ('y', str(y)), ('depth', str(page >> 7 & 3)),
                                 ('blend', str(page >> 5 & 3))])


def palette_text(attribute: int) -> str:
    """Returns the call that makes a palette's attribute."""
    return call('clut', [(axis, str(value)) for axis, value in zip('xy', palette_corner(attribute))])


def properties(opcode: int, shown: int) -> Arguments:
    """Returns the properties of a primitive that are set."""
    return [(name, 'True') for name, bit in (('semi', SEMI), ('raw', RAW)) if opcode & shown & bit]


def polygon_text(unit: Unit) -> str:
    """A polygon."""
    points, colors, coords = polygon_parts(unit.words)
    shades = '[%s]' % ', '.join(map(color, colors)) if unit.opcode & SHADED else color(colors[0])
    arguments = [('vertices', str(points)), ('color', shades)]
    if coords:
        arguments += [('texture', str([texcoord_of(word) for word in coords])),
                      ('palette', palette_text(coords[0] >> 16)), ('page', page_text(coords[1] >> 16))]
    return call('polygon', arguments + properties(unit.opcode, SEMI | RAW))


def line_text(unit: Unit) -> str:
    """A line of two ends."""
    ends, colors = line_parts(unit.words)
    shades = '[%s]' % ', '.join(map(color, colors)) if unit.opcode & SHADED else color(colors[0])
    return call('line', [('points', str(ends)), ('color', shades)] + properties(unit.opcode, SEMI))


def rectangle_text(unit: Unit) -> str:
    """A rectangle."""
    (x, y), (w, h), coord = rectangle_parts(unit.words)
    arguments = [('color', color(unit.words[0]))]
    arguments += [(name, str(value)) for name, value in zip('xywh', (x, y, w, h))]
    if coord is not None:
        arguments += [('texture', str(texcoord_of(coord))), ('palette', palette_text(coord >> 16))]
    return call('rectangle', arguments + properties(unit.opcode, SEMI | RAW))


def numbers(words: Sequence[int], names: str) -> Arguments:
    """Returns the halves of words, each with its name."""
    halves = [half for word in words for half in (word & 0xFFFF, word >> 16)]
    return [(name, str(half)) for name, half in zip(names.split(), halves)]


def fill_text(unit: Unit) -> str:
    """A fill."""
    return call('fill', [('color', color(unit.words[0]))] + numbers(unit.words[1:], 'x y w h'))


def copy_text(unit: Unit) -> str:
    """A copy."""
    return call('copy', numbers(unit.words[1:], 'from_x from_y x y w h'))


def store_text(unit: Unit) -> str:
    """A store."""
    return call('store', numbers(unit.words[1:], 'x y w h'))


def load_text(unit: Unit) -> str:
    """A load, its cells in rows."""
    x, y, w, h, cells = load_parts(unit)
    texts = ['0x%04X' % cell for cell in cells]
    rows = [', '.join(texts[at:at + 12]) for at in range(0, len(texts), 12)]
    arguments = [(name, str(value)) for name, value in zip('xywh', (x, y, w, h))]
    return call('load', arguments + [('cells', '[%s]' % (',\n' + 2 * INDENT).join(rows))])


def mode_text(value: int) -> str:
    """E1h."""
    flags = (('dither', 9), ('draw_to_display', 10), ('flip_x', 12), ('flip_y', 13))
    return call('draw_mode', [('page', page_text(value))] + [(name, 'True') for name, bit in flags if value >> bit & 1])


def corners(value: int) -> Tuple[int, int]:
    """A corner of the drawing area."""
    return value & 0x3FF, value >> 10 & 0x3FF


def setting_text(unit: Unit) -> str:
    """One of E1h to E6h. A corner of the drawing area is one of the two words of `drawing_area`."""
    opcode, value = unit.opcode, unit.words[0] & 0xFFFFFF
    if opcode == 0xE1:
        return mode_text(value)
    if opcode == 0xE2:
        names = ('mask_x', 'mask_y', 'offset_x', 'offset_y')
        return call('texture_window', [(name, str(value >> 5 * k & 31)) for k, name in enumerate(names)])
    if opcode in (0xE3, 0xE4):
        x, y = corners(value)
        pairs = [('x1', x), ('y1', y), ('x2', 1023), ('y2', 511)] if opcode == 0xE3 else [
            ('x1', 0), ('y1', 0), ('x2', x), ('y2', y)]
        return call('drawing_area', [(name, str(at)) for name, at in pairs]) + ('[:1]' if opcode == 0xE3 else '[1:]')
    if opcode == 0xE5:
        return call('drawing_offset', [('x', str(signed(value))), ('y', str(signed(value >> 11)))])
    return call('mask_setting', [(name, 'True') for name, bit in (('force', 0), ('keep', 1)) if value >> bit & 1])


TEXTS: Dict[str, Callable[[Unit], str]] = {
    POLYGON: polygon_text, LINE: line_text, RECTANGLE: rectangle_text, FILL: fill_text, COPY: copy_text,
    STORE: store_text, LOAD: load_text, ENVIRONMENT: setting_text}


def words_text(words: Sequence[int]) -> str:
    """Words as they are."""
    return '[%s]' % ', '.join('0x%08X' % word for word in words)


def named_text(unit: Unit) -> str:
    """Returns the call that makes a packet's words; the words themselves if no call makes just these."""
    try:
        text = TEXTS[unit.name](unit)
        made = eval(text, dict(vars(capture)))      # a text of this module's own making
    except (KeyError, ValueError, IndexError, SyntaxError, TypeError):
        return words_text(unit.words)
    return text if tuple(made) == unit.words else words_text(unit.words)
