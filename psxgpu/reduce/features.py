"""What a packet and the settings before it have, and can do without: dither, a texture, the drawing offset ..

A feature is a function that takes it away from the words of one packet. What it returns is the same packet without the
feature, or the words themselves if they have none.
"""
from __future__ import annotations

import io
from functools import lru_cache
from typing import Callable, Dict, FrozenSet, Iterator, List, Sequence, Tuple

from psxgpu.packets.grammar import (ENVIRONMENT, LINE, LOAD, POLYGON, POLYLINE, QUAD, RAW, RECTANGLE, SEMI, SHADED,
                                    TEXTURED, name_and_length)
from psxgpu.reduce.numbers import cleaned
from psxgpu.reduce.plainer import plainer_lines, plainer_polygons, plainer_rectangles, segments, triangles
from psxgpu.reduce.units import Gatherer, Unit, capture_of
from psxgpu.stream import Stream

Words = Tuple[int, ...]
Feature = Callable[[Words], Words]
FORMS: Dict[str, Callable[[Unit], Iterator[Unit]]] = {
    POLYGON: plainer_polygons, LINE: plainer_lines, RECTANGLE: plainer_rectangles}
WHOLE = 0x7FFFF             # E4h for all of video memory


def name_of(packet: Sequence[int]) -> str:
    """Returns the name of a packet."""
    return name_and_length(packet[0])[0]


def setting(opcode: int, bits: int, value: int = 0) -> Feature:
    """Returns a feature of a register: its bits get a plain value."""
    return lambda words: ((words[0] & ~bits | value,) if words[0] >> 24 == opcode else words)


def page_bits(bits: int, value: int) -> Feature:
    """Returns the same for bits of E1h that textured polygons set, too."""
    def change(words: Words) -> Words:
        opcode = words[0] >> 24
        if opcode == 0xE1:
            return (words[0] & ~bits | value,)
        if name_of(words) != POLYGON or not opcode & TEXTURED:
            return words
        at = 5 if opcode & SHADED else 4
        return (*words[:at], words[at] & ~(bits << 16) | value << 16, *words[at + 1:])
    return change


def opaque(words: Words) -> Words:
    """Without semi-transparency."""
    return (words[0] & ~(SEMI << 24), *words[1:]) if name_of(words) in FORMS else words


def property_of(bit: int, names: Sequence[str]) -> Feature:
    """Returns a feature of an opcode: shades, a texture."""
    def change(words: Words) -> Words:
        name, opcode = name_of(words), words[0] >> 24
        if name not in names or not opcode & bit or (name == LINE and opcode & POLYLINE):
            return words
        plain = [unit for unit in FORMS[name](Unit(name, words)) if not unit.opcode & bit
                 and (bit == TEXTURED or unit.opcode & TEXTURED == opcode & TEXTURED)]
        return tuple(plain[-1].words) if plain else words
    return change


def raw(words: Words) -> Words:
    """Without the factor of a texture."""
    is_textured = name_of(words) in (POLYGON, RECTANGLE) and words[0] >> 24 & TEXTURED
    return (words[0] | RAW << 24, *words[1:]) if is_textured else words


def first_triangle(words: Words) -> Words:
    """A quad as its first triangle."""
    is_quad = name_of(words) == POLYGON and words[0] >> 24 & QUAD
    return tuple(next(triangles(Unit(POLYGON, words))).words) if is_quad else words


def first_segment(words: Words) -> Words:
    """A polyline as its first segment."""
    is_polyline = name_of(words) == LINE and words[0] >> 24 & POLYLINE and len(words) > 3
    return tuple(next(segments(Unit(LINE, words)), Unit(LINE, words)).words) if is_polyline else words


FEATURES: Dict[str, Feature] = {
    'unused-bits': lambda words: tuple(cleaned(Unit(name_of(words), words)).words),
    'quad': first_triangle, 'polyline': first_segment, 'semi-transparency': opaque, 'factor': raw,
    'shades': property_of(SHADED, (POLYGON, LINE)), 'texture': property_of(TEXTURED, (POLYGON, RECTANGLE)),
    'dither': setting(0xE1, 0x200), 'x-flip': setting(0xE1, 0x1000), 'y-flip': setting(0xE1, 0x2000),
    'display-bit': setting(0xE1, 0x400), 'bit-11': setting(0xE1, 0x800), 'blend-mode': page_bits(0x60, 0),
    'depth': page_bits(0x180, 0x100), 'page': page_bits(0x1F, 8), 'window': setting(0xE2, 0xFFFFFF),
    'area-start': setting(0xE3, 0xFFFFFF), 'area-end': setting(0xE4, 0xFFFFFF, WHOLE),
    'offset': setting(0xE5, 0xFFFFFF), 'forced-mask': setting(0xE6, 1), 'tested-mask': setting(0xE6, 2)}


def stripped(feature: str, data: bytes) -> bytes:
    """Returns a capture without a feature in any of its packets."""
    stream = Stream(io.BytesIO(data), 'capture')
    is_tall = stream.version == 3
    units: List[Unit] = [unit for unit, _ in Gatherer(is_tall).units(stream)]
    change = FEATURES[feature]
    return capture_of([unit.with_words(change(unit.words)) if may_have(unit) else unit for unit in units], is_tall)


def may_have(unit: Unit) -> bool:
    """Returns whether a unit may have a feature. The loads before a packet are no part of it."""
    return unit.is_packet and unit.name in (ENVIRONMENT, *FORMS)


@lru_cache(1 << 14)
def features_of(packet: Words) -> FrozenSet[str]:
    """Returns the features that one packet has."""
    return frozenset(feature for feature, change in FEATURES.items() if change(packet) != packet)


def active(packets: Sequence[Words]) -> List[str]:
    """Returns the features that packets have. Those of a load are its own."""
    own = [packet for packet in packets if packet is packets[-1] or name_of(packet) != LOAD]
    found = frozenset().union(*map(features_of, own))   # type: FrozenSet[str]
    return [feature for feature in FEATURES if feature in found]
