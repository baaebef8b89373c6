"""A small player as a function of ours, for tests of what compares players: it knows fills, loads, copies, stores and
rectangles (flat, blended, of 4 bits with a palette), and can have a fault."""
from __future__ import annotations

import io
from array import array
from typing import Dict, List, Optional, Sequence, Tuple

from psxgpu.packets.parts import rectangle_parts, signed, texcoord_of
from psxgpu.packets.grammar import RAW, SEMI, TEXTURED, cells_of
from psxgpu.packets.split import Splitter
from psxgpu.packets.texels import page_corner, palette_corner
from psxgpu.players.named import Done, Player
from psxgpu.stream import GP0, GP1, READ, STAT, Stream

COLUMNS = 1024
STATUS = 0x14802000         # after a reset, as far as these tests look


def channels(cell: int) -> List[int]:
    return [cell >> shift & 31 for shift in (0, 5, 10)]


def cell_of(values: Sequence[int]) -> int:
    return values[0] | values[1] << 5 | values[2] << 10


def blended(back: int, front: int, mode: int) -> int:
    """psx-spx, semi-transparency: B/2+F/2, B+F, B-F, B+F/4."""
    out = []
    for b, f in zip(channels(back), channels(front)):
        value = ((b + f) // 2, b + f, b - f, b + f // 4)[mode]
        out.append(max(0, min(31, value)))
    return cell_of(out)


class Machine:
    """Video memory and what is open."""

    def __init__(self, rows: int, fault: str) -> None:
        self.rows, self.fault = rows, fault
        self.cells = array('H', bytes(2 * COLUMNS * rows))
        self.splitter = Splitter(rows == 1024)
        self.words: List[str] = []
        self.reads: List[int] = []
        self.box: Optional[Tuple[int, int, int, int]] = None        # of the open load
        self.data = array('I')
        self.palettes: Dict[int, array[int]] = {}

    def place(self, x: int, y: int) -> int:
        return y % self.rows * COLUMNS + x % COLUMNS

    def gp0(self, words: Sequence[int]) -> bool:
        """False where the player breaks down."""
        at = 0
        for name, packet, end in self.splitter.push(words):
            if self.box:
                at = self.pixels(words, at)
            at = end
            if name == 'rectangle' and packet[0] >> 24 & TEXTURED and self.fault == 'dies':
                return False
            getattr(self, name, self.nop)(packet)
        if self.box:
            self.pixels(words, at)
        return True

    def pixels(self, words: Sequence[int], at: int) -> int:
        """Takes data words of the open load; the number of the next word."""
        assert self.box
        x, y, w, h = self.box
        end = at + (w * h + 1) // 2 - len(self.data)
        self.data.extend(words[at:end])
        if len(self.data) == (w * h + 1) // 2:
            cells = array('H', self.data.tobytes())
            for row in range(h):
                part = cells[w * row:w * row + w]
                first = min(w, COLUMNS - x)
                self.cells[self.place(x, y + row):self.place(x, y + row) + first] = part[:first]
                self.cells[self.place(0, y + row):self.place(0, y + row) + w - first] = part[first:]
            self.box, self.data = None, array('I')
        return end

    def nop(self, words: Sequence[int]) -> None:
        if words[0] >> 24 == 1:
            self.palettes.clear()

    def fill(self, words: Sequence[int]) -> None:
        x, y = words[1] & 0x3F0, words[1] >> 16
        w, h = (words[2] & 0x3FF) + 15 & ~15, words[2] >> 16 & 0x1FF
        color = self.color(words[0])
        for row in range(y, y + h):
            for column in range(x, x + w):
                self.cells[self.place(column, row)] = color

    def color(self, word: int) -> int:
        red = 0 if self.fault == 'red' else word & 255
        return cell_of([red >> 3, (word >> 8 & 255) >> 3, (word >> 16 & 255) >> 3])

    def load(self, words: Sequence[int]) -> None:
        self.box = (words[1] & 0x3FF, words[1] >> 16 & 0x3FF, *cells_of(words[2]))

    def copy(self, words: Sequence[int]) -> None:
        (x1, y1), (x2, y2) = ((word & 0x3FF, word >> 16 & 0x3FF) for word in words[1:3])
        w, h = cells_of(words[3])
        for row in range(h):
            for column in range(w):
                self.cells[self.place(x2 + column, y2 + row)] = self.cells[self.place(x1 + column, y1 + row)]

    def store(self, words: Sequence[int]) -> None:
        x, y = words[1] & 0x3FF, words[1] >> 16 & 0x3FF
        w, h = cells_of(words[2])
        out = [self.cells[self.place(x + k % w, y + k // w)] for k in range(w * h)]
        if self.fault == 'padding':
            out += [0xFFFF] * (len(out) % 2)
        out += [0] * (len(out) % 2)
        self.reads = [low | high << 16 for low, high in zip(out[::2], out[1::2])]

    def palette(self, attribute: int) -> array[int]:
        x, y = palette_corner(attribute)
        cells = self.cells[self.place(x, y):self.place(x, y) + 16]
        return self.palettes.setdefault(attribute, cells) if self.fault == 'cache' else cells

    def texel(self, u: int, v: int, palette: array[int]) -> int:
        x, y = page_corner(self.splitter.registers[0xE1])
        cell = self.cells[self.place(x + (u & 255) // 4, y + (v & 255))]
        return palette[cell >> 4 * (u & 3) & 15]

    def rectangle(self, words: Sequence[int]) -> None:
        (x, y), (w, h), coord = rectangle_parts(words)
        registers, opcode = self.splitter.registers, words[0] >> 24
        x, y = x + signed(registers[0xE5]), y + signed(registers[0xE5] >> 11)
        palette = self.palette(coord >> 16) if coord is not None else None
        mode = registers[0xE1] >> 5 & 3
        mode = 1 if mode == 3 and self.fault == 'blend' else mode
        for row in range(h):
            for column in range(w - (self.fault == 'column' and palette is not None)):
                front = self.color(words[0])
                if palette is not None:
                    assert opcode & RAW, 'this player multiplies nothing'
                    front = self.texel(texcoord_of(coord)[0] + column, texcoord_of(coord)[1] + row, palette)
                    if not front:
                        continue
                self.draw(x + column, y + row, front, bool(opcode & SEMI), mode)

    def draw(self, x: int, y: int, front: int, semi: bool, mode: int) -> None:
        area = [(self.splitter.registers[at] & 0x3FF, self.splitter.registers[at] >> 10) for at in (0xE3, 0xE4)]
        if area[0][0] <= x <= area[1][0] and area[0][1] <= y <= area[1][1]:
            at = self.place(x, y)
            self.cells[at] = blended(self.cells[at], front, mode) if semi else front

    def read(self, count: int) -> None:
        for _ in range(count):
            self.words.append('%08x' % (self.reads.pop(0) if self.reads else 0))

    def status(self) -> None:
        bit = 1 << 11 if self.fault == 'status' and self.splitter.registers[0xE6] & 1 else 0
        self.words.append('%08x' % (STATUS | bit | self.splitter.registers[0xE1] & 0x7FF))


class SmallPlayer(Player):
    """Its text is its fault."""

    def __init__(self, fault: str = '') -> None:
        self.text = fault or 'right'
        self.fault = fault

    def run(self, mode: str, data: bytes, seconds: Optional[float] = None) -> Done:
        stream = Stream(io.BytesIO(data), 'capture')
        machine = Machine(1024 if stream.version == 3 else 512, self.fault)
        for kind, count, words in stream:
            if kind == GP0 and not machine.gp0(words):
                return Done(3, b'', b'broken\n')
            if kind == GP1:
                machine.splitter.control(words[0])
            if kind == READ:
                machine.read(count)
            if kind == STAT:
                machine.status()
        out = machine.cells.tobytes() if mode == 'vram' else ''.join(it + '\n' for it in machine.words).encode()
        return Done(0, out, b'')
