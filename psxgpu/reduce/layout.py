"""The numbers of a packet: where its words have them, how wide they are, and which value of each is the simplest."""
from __future__ import annotations

from typing import Iterator, List, Tuple

from psxgpu.packets.grammar import (COPY, ENVIRONMENT, FILL, LINE, LOAD, POLYGON, POLYLINE, RAW, RECTANGLE, SHADED,
                                    SIZE_CODE, STORE, TEXTURED)
from psxgpu.packets.parts import POLYGONS, signed
from psxgpu.reduce.units import Unit

Place = Tuple[int, int, int]        # word, shift, width; a negative width is that of a signed number
COLOR = ((0, 8), (8, 8), (16, 8))
VERTEX = ((0, -11), (16, -11))
TEXCOORD = ((0, 8), (8, 8))
SIZE, CORNER = ((0, 10), (16, 9)), ((0, 10), (16, 10))
FIELDS = {'color': COLOR, 'vertex': VERTEX, 'texcoord': TEXCOORD, 'size': SIZE, 'corner': CORNER, 'other': ()}
SETTINGS = {0xE1: ((0, 4), (4, 1), (5, 2), (7, 2), (9, 1), (10, 1), (11, 1), (12, 1), (13, 1)),
            0xE2: ((0, 5), (5, 5), (10, 5), (15, 5)), 0xE3: ((0, 10), (10, 10)), 0xE4: (),
            0xE5: ((0, -11), (11, -11)), 0xE6: ((0, 1), (1, 1))}
USED = {'vertex': 0x07FF07FF, 'corner': 0x03FF03FF}     # the bits that mean something
GRAY = 0x808080             # the colour that leaves a texel as it is
WHOLE_AREA = {False: 0xE407FFFF, True: 0xE40FFFFF}      # E4h for all of video memory, and if it is tall


def polygon_layout(unit: Unit) -> List[str]:
    """Returns what each word of a polygon is."""
    kinds = ['color'] * len(unit.words)
    for kind, places in zip(('vertex', 'color', 'texcoord'), POLYGONS[unit.opcode]):
        kinds[places] = [kind] * len(kinds[places])
    return kinds


def layout(unit: Unit) -> List[str]:
    """Returns what each word of a packet is: a key of FIELDS, or `setting`."""
    opcode = unit.opcode
    if unit.name == POLYGON:
        return polygon_layout(unit)
    if unit.name == RECTANGLE:
        return ['color', 'vertex'] + ['texcoord'] * bool(opcode & TEXTURED) + ['size'] * (opcode & SIZE_CODE == 0)
    if unit.name == LINE:
        if opcode & POLYLINE:
            return ['color'] + ['other'] * (len(unit.words) - 1)
        return ['color', 'vertex', 'color', 'vertex'] if opcode & SHADED else ['color', 'vertex', 'vertex']
    count = len(unit.words)
    return {FILL: ['color', 'corner', 'size'], COPY: ['other', 'corner', 'corner', 'size'],
            STORE: ['other', 'corner', 'size'], LOAD: ['other', 'corner'] + ['other'] * (count - 2),
            ENVIRONMENT: ['setting']}.get(unit.name, ['other'] * count)


def places_of(unit: Unit, kind: str) -> List[int]:
    """Returns the numbers of the words of one kind."""
    return [at for at, it in enumerate(layout(unit)) if it == kind]


def fields_of(unit: Unit) -> Iterator[Place]:
    """Yields where the numbers of a packet are. The data words of a load have none, and are many."""
    if unit.name == LOAD:
        yield from ((1, *place) for place in CORNER)
        return
    for at, kind in enumerate(layout(unit)):
        table = SETTINGS.get(unit.opcode, ()) if kind == 'setting' else FIELDS[kind]
        for shift, width in table:
            yield at, shift, width


def value_of(word: int, shift: int, width: int) -> int:
    """Returns a number of a word."""
    return signed(word >> shift) if width < 0 else word >> shift & (1 << width) - 1


def goal_of(unit: Unit, at: int) -> int:
    """Returns the simplest value of the numbers of a word: 128 for colours that a texture is multiplied with, 1 for a
    size whose 0 means the greatest, else 0."""
    if unit.name == LOAD:
        return 0
    kind = layout(unit)[at]
    if kind == 'size' and unit.name in (COPY, STORE):
        return 1
    is_factor = unit.name in (POLYGON, RECTANGLE) and kind == 'color'
    return 128 if is_factor and unit.opcode & TEXTURED and not unit.opcode & RAW else 0


def with_value(unit: Unit, place: Place, value: int) -> Unit:
    """Returns the unit with another number at a place."""
    at, shift, width = place
    mask = (1 << abs(width)) - 1
    words = list(unit.words)
    words[at] = words[at] & ~(mask << shift) & 0xFFFFFFFF | (value & mask) << shift
    return unit.with_words(words)
