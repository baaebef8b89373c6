"""Classes of packets that players are known to draw differently, and how they are left out of a comparison."""
from typing import Callable, Dict, FrozenSet, Iterable, List, NamedTuple, Sequence

from psxgpu.packets.parts import (Point, Registers, line_parts, polygon_parts, rectangle_parts, signed, texcoord_of,
                                  vertex_of)
from psxgpu.packets.grammar import COPY, FILL, LINE, POLYGON, RECTANGLE, SHADED, TEXTURED, cells_of


class Packet(NamedTuple):
    """A packet, and the values of E1h to E6h after its words."""
    name: str
    words: Sequence[int]
    registers: Registers

    def has(self, bit: int) -> bool:
        """Returns whether a bit of the opcode is set."""
        return bool(self.words[0] >> 24 & bit)


def has_colors(words: Iterable[int]) -> bool:
    """Returns whether words have more than one colour."""
    return len({word & 0xFFFFFF for word in words}) > 1


def is_gouraud(packet: Packet) -> bool:
    """Returns whether it is a polygon whose colours differ."""
    return packet.name == POLYGON and packet.has(SHADED) and has_colors(polygon_parts(packet.words)[1])


def is_scaled(packet: Packet) -> bool:
    """Returns whether it is a textured polygon whose texels are not one for each cell."""
    if packet.name != POLYGON or not packet.has(TEXTURED):
        return False
    vertices, _, texcoords = polygon_parts(packet.words)
    return len({(u - x, v - y) for (x, y), (u, v) in zip(vertices, map(texcoord_of, texcoords))}) > 1


def is_sloped(packet: Packet) -> bool:
    """Returns whether it is a line that is neither on an axis nor on a diagonal."""
    if packet.name != LINE:
        return False
    (x1, y1), (x2, y2) = line_parts(packet.words)[0]
    return x1 != x2 and y1 != y2 and abs(x1 - x2) != abs(y1 - y2)


def is_shaded_line(packet: Packet) -> bool:
    """Returns whether it is a line whose ends have two colours."""
    return packet.name == LINE and packet.has(SHADED) and has_colors(line_parts(packet.words)[1])


def is_smear(packet: Packet) -> bool:
    """Returns whether it is a copy whose target begins, in a row of the source, to the right of where the source
    begins."""
    if packet.name != COPY:
        return False
    (x1, y1), (x2, y2) = ((word & 0x3FF, word >> 16 & 0x3FF) for word in packet.words[1:3])
    w, h = cells_of(packet.words[3])
    return 0 < (x2 - x1) % 1024 < w and ((y2 - y1) % 512 < h or (y1 - y2) % 512 < h)


def is_even_flip(packet: Packet) -> bool:
    """Returns whether it is a textured rectangle with X flip and an even U."""
    if packet.name != RECTANGLE or not packet.registers[0xE1] >> 12 & 1:
        return False
    texcoord = rectangle_parts(packet.words)[2]
    return texcoord is not None and not texcoord & 1


def is_far(packet: Packet) -> bool:
    """Returns whether it has a vertex whose sum with the drawing offset has more than eleven bits."""
    offset = signed(packet.registers[0xE5]), signed(packet.registers[0xE5] >> 11)
    vertices: Dict[str, Callable[[], List[Point]]] = {
        POLYGON: lambda: polygon_parts(packet.words)[0], LINE: lambda: line_parts(packet.words)[0],
        RECTANGLE: lambda: [vertex_of(packet.words[1])]}
    return packet.name in vertices and any(not -1024 <= at + by < 1024 for vertex in vertices[packet.name]()
                                           for at, by in zip(vertex, offset))


CLASSES: Dict[str, Callable[[Packet], bool]] = {
    'gouraud': is_gouraud, 'scaled': is_scaled, 'sloped': is_sloped, 'shaded-line': is_shaded_line,
    'smear': is_smear, 'even-flip': is_even_flip, 'far': is_far}
NAMES = (POLYGON, LINE, RECTANGLE, COPY, FILL)


def is_known(classes: Iterable[str], name: str, words: Sequence[int], registers: Registers) -> bool:
    """Returns whether a packet is of one of these classes: of CLASSES, or a name of NAMES."""
    packet = Packet(name, words, registers)
    return any(name == one or one in CLASSES and CLASSES[one](packet) for one in classes)


def classes_of(name: str, words: Sequence[int], registers: Registers) -> FrozenSet[str]:
    """Returns the classes of CLASSES that a packet is of."""
    packet = Packet(name, words, registers)
    return frozenset(one for one, is_in in CLASSES.items() if is_in(packet)) if name in NAMES else frozenset()
