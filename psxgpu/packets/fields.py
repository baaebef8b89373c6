"""What a packet says, in words: its colours, vertices, texture and what else is in force for it."""
from functools import lru_cache
from typing import List, Sequence

from psxgpu.packets.parts import POLYGONS, Registers, line_parts, rectangle_parts, signed
from psxgpu.packets.grammar import (COPY, ENVIRONMENT, FILL, LINE, LOAD, POLYGON, POLYLINE, RAW, RECTANGLE, SEMI,
                                    SHADED, STORE, TEXTURED, cells_of, fill_box)
from psxgpu.packets.texts import CACHED, color_text, colors_text, pair, texcoord_text, texcoords_text, vertices_text

BLENDS = ('B/2+F/2', 'B+F', 'B-F', 'B+F/4')
DEPTHS = (4, 8, 15, 15)


@lru_cache(CACHED)
def page_text(page: int) -> str:
    """Returns a texture page as text, from the bits of E1h."""
    place = (page & 15) * 64, (page >> 4 & 1) * 256 + (page >> 11 & 1) * 512
    return 'page %s of %d bits' % (pair(place), DEPTHS[page >> 7 & 3])


@lru_cache(CACHED)
def palette_text(attribute: int) -> str:
    """Returns the place of a palette as text."""
    return 'palette %s' % pair(((attribute & 63) * 16, attribute >> 6 & 511))


def window_text(value: int) -> List[str]:
    """Returns a texture window as text, if there is one."""
    if not value & 0xFFFFF:
        return []
    mask, offset = (value & 31, value >> 5 & 31), (value >> 10 & 31, value >> 15 & 31)
    return ['window mask %s offset %s' % tuple([pair((8 * x, 8 * y)) for x, y in (mask, offset)])]


@lru_cache(CACHED)
def texture_text(raw: int, attribute: int, page: int, window: int) -> str:
    """Returns page, palette and window of a textured packet. `page`, `window`: the values of E1h and E2h."""
    texts = [page_text(page)] + ([palette_text(attribute)] if page >> 7 & 3 < 2 else []) + window_text(window)
    return ', '.join(texts) + (', raw' if raw else '')


@lru_cache(CACHED)
def setting_words(is_semi: int, mode: int, offset: int, mask: int) -> str:
    """Returns what is in force for a packet that is drawn. `mode`, `offset`, `mask`: the values of E1h, E5h and E6h."""
    texts = ['semi-transparent %s' % BLENDS[mode >> 5 & 3]] if is_semi else []
    if mode >> 9 & 1:
        texts.append('dithered')
    place = signed(offset), signed(offset >> 11)
    if place != (0, 0):
        texts.append('offset %s' % pair(place))
    if mask & 3:
        texts.append('mask setting %d' % (mask & 3))
    return ', '.join(texts)


def settings_text(opcode: int, registers: Registers, can_dither: bool) -> List[str]:
    """Returns what is in force for a packet that is drawn."""
    mode = registers[0xE1] if can_dither else registers[0xE1] & ~0x200
    text = setting_words(opcode & SEMI, mode, registers[0xE5], registers[0xE6])
    return [text] if text else []


@lru_cache(CACHED)
def texture_and_settings(opcode: int, attribute: int, mode: int, window: int, offset: int, mask: int) -> List[str]:
    """Returns the texture of a polygon and what is in force for it. `mode`, `window`, `offset`, `mask`: the values of
    E1h, E2h, E5h and E6h."""
    registers = {0xE1: mode, 0xE5: offset, 0xE6: mask}
    return [texture_text(opcode & RAW, attribute, mode, window), *settings_text(opcode, registers, not opcode & RAW)]


def polygon_text(words: Sequence[int], registers: Registers) -> List[str]:
    """Returns the fields of a polygon."""
    opcode = words[0] >> 24
    vertices, colors, texcoords = POLYGONS[opcode]
    texts = ['vertices ' + vertices_text(words[vertices]), 'colours ' + colors_text(tuple(words[colors]))]
    if not opcode & TEXTURED:
        return texts + settings_text(opcode, registers, bool(opcode & SHADED))
    if opcode & RAW:
        del texts[1]
    texts.append('texcoords ' + texcoords_text(tuple(words[texcoords])))
    return texts + texture_and_settings(opcode, words[2] >> 16, registers[0xE1], registers[0xE2], registers[0xE5],
                                        registers[0xE6])


def line_text(words: Sequence[int], registers: Registers) -> List[str]:
    """Returns the fields of a line."""
    ends, colors = line_parts(words)
    opcode = words[0] >> 24
    shown = colors if opcode & SHADED else colors[:1]
    return (['%s %s' % ('segment of a polyline' if opcode & POLYLINE else 'ends', ' '.join(map(pair, ends))),
             'colours ' + ', '.join(map(color_text, shown))] + settings_text(opcode, registers, True))


def rectangle_text(words: Sequence[int], registers: Registers) -> List[str]:
    """Returns the fields of a rectangle."""
    opcode, mode = words[0] >> 24, registers[0xE1]
    corner, size, texcoord = rectangle_parts(words)
    texts = ['corner (%d, %d), size %d by %d' % (corner + size)]
    if texcoord is None or not opcode & RAW:
        texts.append('colour ' + color_text(words[0]))
    if texcoord is not None:
        flips = ''.join(', %s flip' % axis for axis, bit in (('X', 12), ('Y', 13)) if mode >> bit & 1)
        texts.append('texcoord ' + texcoord_text(texcoord) + flips)
        texts.append(texture_text(opcode & RAW, texcoord >> 16, registers[0xE1], registers[0xE2]))
    return texts + settings_text(opcode, registers, False)


def transfer_text(name: str, words: Sequence[int], registers: Registers, rows: int) -> List[str]:
    """Returns the fields of a copy, load or store. `rows`: of video memory."""
    corners = ['source', 'target'] if name == COPY else ['target'] if name == LOAD else ['source']
    texts = ['%s %s' % (corner, pair((word & 0x3FF, word >> 16 & rows - 1)))
             for corner, word in zip(corners, words[1:])]
    mask = ['mask setting %d' % (registers[0xE6] & 3)] if name != STORE and registers[0xE6] & 3 else []
    return [', '.join(texts + ['size %d by %d' % cells_of(words[-1])] + mask)]


def fill_text(words: Sequence[int], rows: int) -> List[str]:
    """Returns the fields of a fill. `rows`: of video memory."""
    x, y, w, h = fill_box(words)
    return ['corner %s, size %d by %d' % (pair((x, y & rows - 1)), w, h),
            'colour ' + color_text(words[0])]


def environment_text(words: Sequence[int], registers: Registers) -> List[str]:
    """Returns what a word of E1h to E6h sets."""
    opcode = words[0] >> 24
    return [*setting_text(opcode, registers[opcode])]


@lru_cache(CACHED)
def setting_text(opcode: int, value: int) -> List[str]:
    """Returns what one of E1h to E6h sets, from the value that is kept."""
    corner = value & 0x3FF, value >> 10 & 0x3FF
    if opcode == 0xE1:
        bits = (('dither', 9), ('drawing to the display', 10), ('X flip', 12), ('Y flip', 13))
        return ['draw mode: ' + ', '.join([page_text(value), BLENDS[value >> 5 & 3]]
                                          + [name for name, bit in bits if value >> bit & 1])]
    if opcode == 0xE2:
        return window_text(value) or ['window: none']
    if opcode in (0xE3, 0xE4):
        return ['drawing area: %s %s' % ('top left' if opcode == 0xE3 else 'bottom right', pair(corner))]
    if opcode == 0xE5:
        return ['drawing offset %s' % pair((signed(value), signed(value >> 11)))]
    return ['mask setting: %s' % (('none', 'bit 15 is set', 'cells with bit 15 are kept', 'set and kept')[value & 3])]


TEXTS = {POLYGON: polygon_text, LINE: line_text, RECTANGLE: rectangle_text, ENVIRONMENT: environment_text}


def fields(name: str, words: Sequence[int], registers: Registers, rows: int) -> List[str]:
    """Returns the fields of a packet as lines. registers: the values of E1h to E6h after its words; rows: of video
    memory."""
    if name in (COPY, LOAD, STORE):
        return transfer_text(name, words, registers, rows)
    if name == FILL:
        return fill_text(words, rows)
    return TEXTS[name](words, registers) if name in TEXTS else []
