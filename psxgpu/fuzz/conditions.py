"""What is true of an experiment, in words: the features of its packets, and conditions on the numbers of the last one.

Both together are its facts. A kind of difference is described by the facts that it needs."""
from __future__ import annotations

from functools import lru_cache
from math import gcd
from typing import Dict, FrozenSet, Iterable, List, Sequence, Set, Tuple

from psxgpu.packets.grammar import (COPY, FILL, LINE, LOAD, POLYGON, POLYLINE, QUAD, RECTANGLE, SEMI, SHADED, SIZE_CODE,
                                    TEXTURED, cells_of)
from psxgpu.packets.known import Packet, has_colors, is_scaled, is_shaded_line, is_sloped
from psxgpu.packets.parts import line_parts, polygon_parts, rectangle_parts, signed, texcoord_of, vertex_of
from psxgpu.packets.texels import Box, texture_of
from psxgpu.players.bench import Experiment, Words, registers_of
from psxgpu.reduce.features import FEATURES, active, name_of
from psxgpu.reduce.needs import target_of
from psxgpu.reduce.plainer import segments
from psxgpu.reduce.units import Unit

Registers = Dict[int, int]
Facts = FrozenSet[str]
DRAWN = (POLYGON, LINE, RECTANGLE)
BLENDING = 'blending B/2+F/2', 'blending B+F', 'blending B-F', 'blending B+F/4'
DEPTHS = '4-bit texels', '8-bit texels', '15-bit texels', 'depth 3'
EARLIER = 'an earlier packet'           # the experiment has more than one that draws
NO_CONDITIONS = frozenset([*FEATURES, EARLIER])
# Features that whole classes of packets have: what needs no other fact has no condition.
VAGUE = frozenset(['quad', 'polyline', 'semi-transparency', 'factor', 'shades', 'texture', 'blend-mode', 'depth',
                   'page'])
# A packet of one row or column may be drawn nowhere.
ONE_MORE = frozenset(['width above 1', 'height above 1'])
# How conditions begin that are often there by chance.
INCIDENTAL = ('width above', 'height above', 'an odd number', 'one c', 'sides off', 'longer than', 'a fixed', 'cut ',
              'a negative offset')
# How conditions begin, and the feature that each has.
HAVING = [('blending', 'semi-transparency'), *((begin, 'texture') for begin in (
    'a scaled', 'an even U', 'U ', 'V ', 'a page', 'a palette', 'a window ', 'its texels', 'its palette', *DEPTHS))]
SETTINGS = range(0xE1, 0xE7)
LOWER = (1, 16, 255, 511)               # sizes above these are conditions


def closed(facts: Facts) -> Facts:
    """Returns facts with the features that conditions among them have."""
    return facts | {feature for begin, feature in HAVING if any(fact.startswith(begin) for fact in facts)}


def holding(facts: Dict[str, bool]) -> Set[str]:
    """Returns the texts that hold."""
    return {text for text, holds in facts.items() if holds}


def size_facts(w: int, h: int) -> Set[str]:
    """Returns facts about a size."""
    facts = {'width 0': not w, 'height 0': not h, 'an odd width': bool(w & 1),
             'an odd number of cells': bool(w * h & 1), 'one column': w == 1}
    for limit in LOWER:
        facts.update({'width above %d' % limit: w > limit, 'height above %d' % limit: h > limit})
    return holding(facts)


def place_facts(what: str, x: int, y: int, w: int, h: int) -> Set[str]:
    """Returns facts about a box."""
    return holding({what + ' over the right edge': x + w > 1024, what + ' over the bottom': y + h > 512})


def rectangle_facts(words: Words, mode: int) -> Set[str]:
    """Returns facts about a rectangle."""
    _, (w, h), coord = rectangle_parts(words)
    out = size_facts(w, h) | holding({'a fixed size': bool(words[0] >> 24 & SIZE_CODE), 'one cell': w == h == 1,
                                      'size bits above its fields': not words[0] >> 24 & SIZE_CODE
                                      and bool(words[-1] & 0xFE00FC00)})
    if coord is None:
        return out
    u, v = texcoord_of(coord)
    left, up = mode >> 12 & 1, mode >> 13 & 1
    return out | holding({'an even U': not u & 1, 'U below 0': bool(left and u - w < -1),
                          'V below 0': bool(up and v - h < -1),
                          'U above 255': not left and u + w > 256, 'V above 255': not up and v + h > 256})


def polygon_facts(packet: Packet) -> Set[str]:
    """Returns facts about a polygon."""
    points, colors, _ = polygon_parts(packet.words)
    (ax, ay), (bx, by), (cx, cy) = points[:3]
    is_box = len(points) == 4 and ay == by and ax == cx and points[3] == (bx, cy)
    return holding({'no area': (bx - ax) * (cy - ay) == (by - ay) * (cx - ax), 'a scaled texture': is_scaled(packet),
                    'several colours': has_colors(colors), 'sides off the axes': len(points) == 4 and not is_box,
                    'crossed vertices': len(points) == 4 and not is_box and is_crossed(points)})


def is_crossed(points: Sequence[Tuple[int, int]]) -> bool:
    """Returns whether vertices 1 and 4 are on the same side of the line through 2 and 3."""
    (ax, ay), (bx, by), (cx, cy), (dx, dy) = points
    sides = [(cx - bx) * (y - by) - (cy - by) * (x - bx) for x, y in ((ax, ay), (dx, dy))]
    return sides[0] * sides[1] > 0


def is_tied(dx: int, dy: int) -> bool:
    """Returns whether a point of a line is halfway between two cells."""
    longer, common = max(abs(dx), abs(dy)), gcd(dx, dy)
    return bool(common) and longer // common % 2 == 0


def line_facts(packet: Packet) -> Set[str]:
    """Returns facts about a line, or about any segment of a polyline."""
    if packet.words[0] >> 24 & POLYLINE:
        lines = (packet._replace(words=unit.words) for unit in segments(Unit(LINE, tuple(packet.words))))
        return set().union(*map(line_facts, lines))
    (ax, ay), (bx, by) = line_parts(packet.words)[0]
    return holding({'sloped': is_sloped(packet), 'one point': (ax, ay) == (bx, by), 'to the left': bx < ax,
                    'a tie': is_tied(bx - ax, by - ay), 'bit 26 of the opcode': bool(packet.words[0] >> 26 & 1),
                    'upward': by < ay, 'steep': abs(by - ay) > abs(bx - ax), 'longer than a cell': (ax, ay) != (bx, by),
                    'several colours': is_shaded_line(packet)})


def drawn_facts(packet: Packet) -> Set[str]:
    """Returns facts about what is drawn at vertices."""
    name, words, registers = packet.name, tuple(packet.words), packet.registers
    if name == RECTANGLE:
        (x, y), (w, h), _ = rectangle_parts(words)
        points, out = [(x, y), (x + max(w, 1) - 1, y + max(h, 1) - 1)], rectangle_facts(words, registers[0xE1])
    elif name == POLYGON:
        points, out = polygon_parts(words)[0], polygon_facts(packet)
    else:
        step, end = 2 if packet.has(SHADED) else 1, -1 if packet.has(POLYLINE) else None
        points, out = list(map(vertex_of, words[1:end:step])), line_facts(packet)
    ox, oy = signed(registers[0xE5]), signed(registers[0xE5] >> 11)
    xs, ys = [x + ox for x, _ in points], [y + oy for _, y in points]
    left, top, right, bottom = (registers[op] >> shift & 0x3FF for op in (0xE3, 0xE4) for shift in (0, 10))
    return out | area_facts(registers) | holding({
        'a sum beyond eleven bits': has_far_vertex(packet, points, (ox, oy)),
        'wider than 1023': max(xs) - min(xs) > 1023, 'higher than 511': max(ys) - min(ys) > 511,
        'a negative offset X': ox < 0, 'a negative offset Y': oy < 0, 'an offset Y': oy != 0,
        'cut on the left': min(xs) < left <= max(xs), 'cut at the top': min(ys) < top <= max(ys),
        'cut on the right': max(xs) > right >= min(xs), 'cut at the bottom': max(ys) > bottom >= min(ys)})


def has_far_vertex(packet: Packet, points: Sequence[Tuple[int, int]], offset: Tuple[int, int]) -> bool:
    """Returns whether the sum of a vertex and the offset has more than eleven bits; of a rectangle, its corner."""
    vertices = points[:1] if packet.name == RECTANGLE else points
    return any(not -1024 <= at + by < 1024 for point in vertices for at, by in zip(point, offset))


def area_facts(registers: Registers) -> Set[str]:
    """Returns facts about the drawing area."""
    (left, top), (right, bottom) = ((registers[op] & 0x3FF, registers[op] >> 10 & 0x3FF) for op in (0xE3, 0xE4))
    return holding({'an empty area': right < left or bottom < top})


def texture_facts(packet: Packet) -> Set[str]:
    """Returns facts about a texture, blending and window."""
    name, words, registers = packet
    mode, window = registers[0xE1], registers[0xE2]
    out = {BLENDING[mode >> 5 & 3]} if packet.has(SEMI) else set()
    if name == LINE or not packet.has(TEXTURED):
        return out
    depth, column, clut, masks = mode >> 7 & 3, mode & 15, words[2] >> 16, (window & 31, window >> 5 & 31)
    return out | {DEPTHS[depth]} | holding({
        'a page over the right edge': column * 64 + (64, 128, 256, 256)[depth] > 1024,
        'a palette over the right edge': depth < 2 and (clut & 63) * 16 + (16, 256)[depth] > 1024,
        'a palette from row 256': depth < 2 and bool(clut >> 6 & 256),
        'a window mask with a hole': any(m and m != 32 - (m & -m) for m in masks),
        'a window mask Y from 16': masks[1] > 15, 'a window mask X from 16': masks[0] > 15,
        'a window offset outside of its mask': bool(window >> 10 & 31 & ~masks[0] or window >> 15 & 31 & ~masks[1])})


def meet(one: Box, other: Box) -> bool:
    """Returns whether two boxes have a common cell. X is modulo 1024, Y modulo 512."""
    (ax, ay, aw, ah), (bx, by, bw, bh) = one, other
    return ((bx - ax) % 1024 < aw or (ax - bx) % 1024 < bw) and ((by - ay) % 512 < ah or (ay - by) % 512 < bh)


def overwritten_facts(packet: Packet, drawn: Sequence[Words]) -> Set[str]:
    """Returns whether packets write what the last of them reads: a player may have read it before."""
    read = texture_of(*packet)
    written = [box for words in drawn for box in target_of(name_of(words), words, packet.registers)] if read else []
    return {text for text, box in zip(('its texels are overwritten', 'its palette is overwritten'), read)
            if any(meet(box, other) for other in written)}


def fill_facts(words: Words) -> Set[str]:
    """Returns facts about a fill."""
    x, y, w, h = words[1] & 0x3FF, words[1] >> 16 & 0x1FF, words[2] & 0x3FF, words[2] >> 16 & 0x1FF
    return size_facts(w, h) | place_facts('its box', x & 0x3F0, y, w + 15 & ~15, h) | holding({
        'an X that is no multiple of 16': bool(x & 15), 'a width that is no multiple of 16': bool(w & 15),
        'a width above 1008': w > 1008,
        'bits above its fields': bool(words[1] & 0xFE00FC00 or words[2] & 0xFE00FC00)}) - {'an odd number of cells'}


def transfer_facts(name: str, words: Words) -> Set[str]:
    """Returns facts about a copy or load."""
    size, target = (words[3], words[2]) if name == COPY else (words[2], words[1])
    (w, h), (x, y) = cells_of(size), (target & 0x3FF, target >> 16 & 0x1FF)
    out = size_facts(w, h) | place_facts('its target', x, y, w, h) | holding({
        'size 0': not size & 0x3FF or not size >> 16 & 0x1FF, 'size bits above its fields': bool(size & 0xFE00FC00) and
        bool((size & 0xFFFF) > 1024 or size >> 16 > 512)})
    if name == COPY:
        from_x, from_y = words[1] & 0x3FF, words[1] >> 16 & 0x1FF
        meets = meet((from_x, from_y, w, h), (x, y, w, h))
        out |= place_facts('its source', from_x, from_y, w, h) | holding({
            'it overlaps itself': meets, 'it overlaps itself to the right': meets and 0 < (x - from_x) % 1024 < w})
    return out


def conditions(experiment: Experiment) -> Facts:
    """Returns the facts about the numbers of the last packet."""
    words, registers = experiment[-1], registers_of(experiment)
    name = name_of(words)
    out: Set[str] = set()
    if name in DRAWN:
        packet = Packet(name, words, registers)
        out = drawn_facts(packet) | texture_facts(packet) | overwritten_facts(packet, drawing(experiment))
    elif name == FILL:
        out = fill_facts(words)
    elif name in (COPY, LOAD):
        out = transfer_facts(name, words)
    # The registers drop the tenth bit of a corner's Y, so its word is looked at.
    corners = [one[0] for one in experiment if one[0] >> 24 in (0xE3, 0xE4)]
    out |= {'an area corner with Y above 511'} if name in DRAWN and any(word >> 19 & 1 for word in corners) else set()
    return frozenset(out)


def drawing(experiment: Iterable[Words]) -> List[Words]:
    """Returns the packets that set no register."""
    return [packet for packet in experiment if packet[0] >> 24 not in SETTINGS]


@lru_cache(4096)
def facts_of(experiment: Experiment) -> Facts:
    """Returns all facts about an experiment: features, and conditions of its last packet."""
    settings = [packet for packet in experiment if packet[0] >> 24 in SETTINGS]
    drawn = drawing(experiment)
    others = [packet for packet in drawn[:-1] if name_of(packet) != LOAD]
    return frozenset(active([*settings, drawn[-1]])) | conditions(experiment) | ({EARLIER} if others else set())


def label(packet: Words) -> str:
    """Returns what a packet is, for people."""
    name, opcode = name_of(packet), packet[0] >> 24
    if name == LINE and opcode & POLYLINE:
        return 'polyline'
    return ('quad' if opcode & QUAD else 'triangle') if name == POLYGON else name
