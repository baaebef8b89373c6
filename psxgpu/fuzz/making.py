"""Makes experiments: packets of the classes of `agree`, packets whose numbers are at boundaries, changes of other
experiments, and changes of what recordings have."""
from __future__ import annotations

from random import Random
from typing import Callable, Dict, Iterator, List, Sequence, Tuple

from psxgpu.fuzz.conditions import SETTINGS, label
from psxgpu.packets.generated import CLASSES
from psxgpu.packets.grammar import (COPY, FILL, LINE, LOAD, POLYGON, POLYLINE, RECTANGLE, SHADED, SIZE_CODE,
                                    TEXTURED, data_words, ends_polyline, name_and_length)
from psxgpu.packets.split import Splitter
from psxgpu.players.bench import Experiment, Words
from psxgpu.reduce.features import FEATURES, name_of
from psxgpu.reduce.layout import fields_of, layout, value_of, with_value
from psxgpu.reduce.units import Unit
from psxgpu.stream import GP0, GP1, Readable, Stream
from psxgpu.words import fill

PLAIN: Dict[int, Words] = {opcode: (opcode << 24 | (0x7FFFF if opcode == 0xE4 else 0),) for opcode in SETTINGS}
EDGES = (0, 0, 1, 2, 3, 7, 8, 15, 16, 17, 31, 32, 63, 64, 65, 127, 128, 255, 256, 257, 319, 510, 511, 512, 513, 1022,
         1023, -1, -2, -16, -512, -1023, -1024)
SMALL = (1, 1, 2, 3, 4, 5, 7, 8, 9, 15, 16, 17, 24, 31, 32, 33, 40)
LIMITS = (0, 255, 256, 257, 300, 510, 511, 512, 513, 1008, 1009, 1022, 1023, 1024)
FIELDS = {0xE2: (0, 5, 10, 15, 20), 0xE3: (0, 10, 20), 0xE4: (0, 10, 20), 0xE5: (0, 11, 22), 0xE6: (0, 1, 2)}
MASKS = (1, 3, 7, 15, 31, 30, 28, 24, 16, 5)
MOST_DATA = 2000            # words of a load
OPCODES: Dict[str, Sequence[int]] = {
    POLYGON: range(0x20, 0x40), LINE: range(0x40, 0x60), RECTANGLE: range(0x60, 0x80), FILL: (2,),
    COPY: (0x80,) * 12 + (0x81, 0x9F), LOAD: (0xA0,) * 18 + (0xA1, 0xBF)}
MOST_KEPT, MOST_RECORDED = 40, 400
MOST_CELLS = 20000          # that an experiment may change; few change more


def packets_of(words: Sequence[int]) -> Iterator[Words]:
    """Yields the whole packets in words, loads with their data words and polylines with their end."""
    at = 0
    while at < len(words):
        name, count = name_and_length(words[at])
        end = at + count
        if name == LOAD and end <= len(words):
            end += data_words(words[at + 2])
        if name == LINE and words[at] >> 24 & POLYLINE:
            while end < len(words) and not ends_polyline(words[end]):
                end += 1
            end += 1
        if end <= len(words):
            yield tuple(words[at:end])
        at = end


def packed(packets: Sequence[Words]) -> Experiment:
    """Returns the experiment of packets: all six settings, then what draws."""
    settings, drawn = dict(PLAIN), []   # type: Dict[int, Words], List[Words]
    for words in packets:
        if words[0] >> 24 in settings and not drawn:
            settings[words[0] >> 24] = words
        else:
            drawn.append(words)
    return (*settings.values(), *drawn)


def setting(experiment: Experiment, opcode: int) -> int:
    """Returns the number of the last packet that sets a register."""
    return max(at for at, words in enumerate(experiment) if words[0] >> 24 == opcode)


class Maker:
    """Makes experiments from random numbers. `pool`: those that agreed, by what they draw."""

    def __init__(self, random: Random) -> None:
        self.random = random
        self.pool: Dict[str, List[Experiment]] = {}
        self.recorded: List[Experiment] = []
        self.seen = 0

    def settings(self) -> List[Words]:
        """Returns settings, most of them plain."""
        r, made = self.random, dict(PLAIN)
        x, y = r.choice(EDGES), r.choice(EDGES)
        if r.random() < 0.5:
            made[0xE1] = (0xE1000000 | r.getrandbits(14) & r.getrandbits(14) | r.randrange(8, 16),)
        if r.random() < 0.2:
            masks = r.choice(MASKS) | r.choice(MASKS) << 5
            made[0xE2] = (0xE2000000 | r.choice((r.getrandbits(20), masks | r.getrandbits(10) << 10)),)
        if r.random() < 0.2:
            x, y = x & 0x3FF, y & 0x3FF
            right, bottom = min(1023, x + r.choice(SMALL)), min(1023, y + r.choice(SMALL))
            made[0xE3] = (0xE3000000 | x | y << 10,)
            made[0xE4] = (0xE4000000 | r.choice((right | bottom << 10, r.getrandbits(20))),)
        if r.random() < 0.2:
            made[0xE5] = (0xE5000000 | x & 0x7FF | (y & 0x7FF) << 11,)
        if r.random() < 0.2:
            made[0xE6] = (0xE6000000 | r.randrange(4),)
        return list(made.values())

    def numbers(self) -> Dict[str, Callable[[int], int]]:
        """Returns functions that give a word of each kind, its numbers at boundaries."""
        r = self.random
        x, y = (r.choice((r.randrange(300), r.choice(EDGES))) for _ in range(2))
        reach: Sequence[int] = EDGES if r.random() < 0.15 else SMALL
        far = r.randrange(6)        # one size in six is at a limit

        def vertex(_: int) -> int:
            dx, dy = (r.choice(reach) * r.choice((1, 1, 0, -1)) for _ in range(2))
            return (x + dx) & 0x7FF | ((y + dy) & 0x7FF) << 16

        def corner(_: int) -> int:
            return (r.choice((r.randrange(1024), r.choice(EDGES) & 0x3FF))
                    | r.choice((r.randrange(512), r.choice(EDGES) & 0x3FF)) << 16)

        def size(_: int) -> int:
            w, h = r.choice(SMALL), r.choice(SMALL)
            if not far:
                w, h = r.choice(((r.choice(LIMITS), h), (w, r.choice(LIMITS))))
            return w | h << 16

        def texcoord(at: int) -> int:
            page = r.randrange(8, 16) | r.getrandbits(9) & 0x1F0
            pair = r.choice((r.getrandbits(16), r.choice(EDGES) & 255 | (r.choice(EDGES) & 255) << 8))
            return pair | (page if at > 3 else r.getrandbits(15)) << 16
        return {'vertex': vertex, 'corner': corner, 'size': size, 'texcoord': texcoord,
                'color': lambda at: r.getrandbits(24), 'other': lambda at: 0}

    def packet(self, name: str) -> Words:
        """Returns a packet of a name."""
        r = self.random
        opcode = r.choice(list(OPCODES[name]))
        count = name_and_length(opcode << 24)[1]
        head = opcode << 24 | r.choice((0x808080, r.getrandbits(24)))
        kinds = layout(Unit(name, (head, *[0] * (count - 1))))
        if name == LOAD:
            kinds = ['other', 'corner', 'size']
        if name == LINE and opcode & POLYLINE:
            kinds = ['color', 'vertex'] * 3 if opcode & SHADED else ['color'] + ['vertex'] * r.randrange(2, 5)
        make = self.numbers()
        words = [head, *(make[kind](at) for at, kind in enumerate(kinds) if at)]
        if name == POLYGON and r.random() < 0.3:
            self.square(words, kinds)
        if name == LINE and opcode & POLYLINE:
            words.append(0x55555555)
        if name == LOAD:
            if data_words(words[2]) > MOST_DATA:
                words[2] = r.choice(SMALL) | r.choice(SMALL) << 16
            words += [r.getrandbits(32) for _ in range(data_words(words[2]))]
        return tuple(words)

    def square(self, words: List[int], kinds: Sequence[str], step: float = 1) -> None:
        """Gives a polygon sides on the axes, and `step` texels for each cell."""
        r, places = self.random, [at for at, kind in enumerate(kinds) if kind == 'vertex']
        x, y, u, v = r.randrange(300), r.randrange(200), r.randrange(200), r.randrange(200)
        w, h = r.choice(SMALL), r.choice(SMALL)
        for at, (dx, dy) in zip(places, ((0, 0), (w, 0), (0, h), (w, h))):
            words[at] = x + dx | y + dy << 16
            if at + 1 < len(words) and kinds[at + 1] == 'texcoord':
                words[at + 1] = words[at + 1] & 0xFFFF0000 | u + int(dx * step) | v + int(dy * step) << 8

    def fresh(self) -> Experiment:
        """Returns an experiment that is made of no other one."""
        r, way = self.random, self.random.random()
        if way < 0.35:
            return packed(list(packets_of(CLASSES[r.choice(list(CLASSES))](r))))
        if way > 0.95:
            packet = self.packet(r.choice((RECTANGLE, RECTANGLE, POLYGON)))
            return (*self.settings(), packet, self.source(packet), packet)
        one = (*self.settings(), self.packet(r.choice(list(OPCODES))))
        return (*one, self.packet(r.choice(list(OPCODES)))) if way > 0.92 else one

    def source(self, packet: Words) -> Words:
        """Returns a fill of all texture pages that packets have, or a load into the palette of a textured one."""
        r = self.random
        if not packet[0] >> 24 & TEXTURED or r.random() < 0.5:
            return tuple(fill(r.getrandbits(24), 512, 0, 511, 511))
        x, y = packet[2] >> 16 & 63, packet[2] >> 22 & 511
        return (0xA0000000, y << 16 | x * 16, 0x00010010, *(r.getrandbits(32) for _ in range(8)))

    def changed(self, old: Experiment) -> Experiment:
        """Returns an experiment with one change: a setting, a property, a feature, a bit of the mode, or a number."""
        r, out, last = self.random, list(old), old[-1]
        way = r.randrange(7)
        if way == 0:
            words = self.other_setting(old) if r.random() < 0.5 else r.choice(self.settings())
            out[setting(old, words[0] >> 24)] = words
        elif way == 1 and name_of(last) in (POLYGON, LINE, RECTANGLE):
            out[-1] = (last[0] ^ r.choice((2, 4) if name_of(last) == LINE else (1, 2)) << 24, *last[1:])
        elif way == 2:
            out = list(map(FEATURES[r.choice(list(FEATURES))], old))
        elif way == 3 and name_of(last) == POLYGON and last[0] >> 24 & TEXTURED:
            at = 5 if last[0] >> 24 & SHADED else 4     # the page of a textured polygon
            out[-1] = (*last[:at], last[at] ^ 0x10000 << r.randrange(9), *last[at + 1:])
        elif way == 3 and name_of(last) == RECTANGLE and last[0] >> 24 & TEXTURED and r.random() < 0.3:
            out[-1] = (*last[:2], last[2] ^ 0x10000 << r.randrange(15), *last[3:])      # the place of its palette
        elif way == 3:
            at = setting(old, 0xE1)
            out[at] = (old[at][0] ^ 1 << r.randrange(14),)
        elif way == 4:
            out[-1] = self.regular(last)
        else:
            out[-1] = self.near(last)
        return tuple(out)

    def other_setting(self, old: Experiment) -> Words:
        """Returns a setting with another number: one that is not plain, if there is one."""
        r, found = self.random, {words[0] >> 24: words for words in old if words[0] >> 24 in FIELDS}
        opcode = r.choice([opcode for opcode, words in found.items() if words != PLAIN[opcode]] or list(found))
        at = r.randrange(len(FIELDS[opcode]) - 1)
        shift, end = FIELDS[opcode][at:at + 2]
        mask, value = (1 << end) - (1 << shift), found[opcode][0]
        new = r.choice((value + (1 << shift), value - (1 << shift), value ^ 1 << r.randrange(shift, end),
                        r.choice(EDGES) << shift))
        return (value & ~mask | new & mask,)

    def regular(self, packet: Words) -> Words:
        """Returns a polygon on the axes or of one colour, a line on an axis, a rectangle whose size is given in another
        way, or another packet without bits above its fields."""
        r, name, opcode, words = self.random, name_of(packet), packet[0] >> 24, list(packet)
        kinds = layout(Unit(name, packet))
        if name == RECTANGLE:
            code = r.choice((0, 1, 2, 3)) << 3
            words[0] = (opcode & ~SIZE_CODE | code) << 24 | words[0] & 0xFFFFFF
            size = [] if code else [r.choice(SMALL) | r.choice(SMALL) << 16]
            return (*words[:3 if opcode & TEXTURED else 2], *size)
        if name == POLYGON and r.random() < 0.5:
            self.square(words, kinds, r.choice((1, 1, 0.5)))
        elif name == POLYGON or name == LINE and not opcode & POLYLINE and opcode & SHADED and r.random() < 0.5:
            words = [words[0] & 0xFFFFFF | word & ~0xFFFFFF if kind == 'color' else word
                     for kind, word in zip(kinds, words)]
        elif name == LINE and not opcode & POLYLINE:
            mask = r.choice((0xFFFF, 0xFFFF0000))
            words[-1] = words[-1] & ~mask | words[1] & mask
        elif name in (FILL, COPY, LOAD):
            words[1:4] = [word & 0x1FF03FF for word in words[1:3 if name != COPY else 4]] + words[3:4] * (name == LOAD)
        return tuple(words)

    def near(self, packet: Words) -> Words:
        """Returns a packet with another number."""
        r, unit = self.random, Unit(name_of(packet), packet)
        places = list(fields_of(unit))
        if unit.name == LINE and unit.opcode & POLYLINE:
            step = 2 if unit.opcode & SHADED else 1
            places = [(at, shift, -11) for at in range(1, len(packet) - 1, step) for shift in (0, 16)]
        if not places:
            return packet
        at, shift, width = place = r.choice(places)
        value = value_of(unit.words[at], shift, width)
        return with_value(unit, place, r.choice((value + 1, value - 1, value ^ 1 << r.randrange(abs(width)),
                                                 r.choice(EDGES)))).words

    def one(self) -> Experiment:
        """Returns an experiment."""
        r = self.random
        ways = ['fresh'] + ['pool'] * (2 if self.pool else 0) + ['recorded'] * bool(self.recorded)
        way = r.choice(ways)
        if way == 'fresh':
            return self.fresh()
        return self.changed(r.choice(self.recorded if way == 'recorded' else self.pool[r.choice(list(self.pool))]))

    def keep(self, experiment: Experiment) -> None:
        """Keeps an experiment that agreed."""
        held = self.pool.setdefault('%s %x' % (label(experiment[-1]), experiment[-1][0] >> 24 & 0x17), [])
        if len(held) < MOST_KEPT:
            held.append(experiment)
        else:
            held[self.random.randrange(MOST_KEPT)] = experiment

    def record(self, file: Readable, name: str) -> None:
        """Takes packets of a flat capture, some with the one before it: swapped with it, or after a dropped one."""
        splitter, before = Splitter(), ()       # type: Splitter, Tuple[int, ...]
        for kind, _, words in Stream(file, name):
            if kind == GP1:
                splitter.control(words[0])
            for packet_name, packet, _ in splitter.push(words) if kind == GP0 else ():
                if packet_name not in (POLYGON, LINE, RECTANGLE, FILL, COPY) or packet[0] >> 24 & 0xE8 == 0x48:
                    continue
                settings = [(opcode << 24 | value,) for opcode, value in splitter.registers.items()]
                drawn = [tuple(packet)] if not before or self.random.random() < 0.7 else [tuple(packet), before]
                self.take((*settings, *drawn))
                before = tuple(packet)

    def take(self, experiment: Experiment) -> None:
        """Keeps a recorded experiment: each has the same chance."""
        self.seen += 1
        if len(self.recorded) < MOST_RECORDED:
            self.recorded.append(experiment)
        elif self.random.randrange(self.seen) < MOST_RECORDED:
            self.recorded[self.random.randrange(MOST_RECORDED)] = experiment
