"""Cuts the words of GP0 into packets, as docs/CAPTURE.md has them, and keeps what E1h to E6h set."""
from typing import Iterator, List, Optional, Sequence, Tuple

from psxgpu.packets.grammar import (ENVIRONMENT, FINISH, LINE, LOAD, POLYGON, POLYLINE, RESETS, SHADED, TABLE, TEXTURED,
                                    data_words, ends_polyline)

# The bits that E1h to E6h keep, in video memory of 512 and of 1024 rows.
KEPT = {False: (0x37FF, 0xFFFFF, 0x7FFFF, 0x7FFFF, 0x3FFFFF, 3),
        True: (0x3FFF, 0xFFFFF, 0xFFFFF, 0xFFFFF, 0x3FFFFF, 3)}
Packet = Tuple[str, List[int]]          # name, words
PAGE = {False: 0x1FF, True: 0x9FF}      # the bits of E1h that a textured polygon sets
CHANGING = (POLYGON, ENVIRONMENT, LOAD, LINE)       # packets that change what follows
OPENING = (LOAD, LINE)          # packets after which words may belong to them
PIECE = 512                     # words that are split at once: no packet has so many


class Splitter:
    """Takes words as they come. A joint of a polyline is a packet of the command, the colour and vertex that it starts
    from, and its own colour and vertex. `registers`: the values of E1h to E6h; `pixels`: data words that an open load
    still takes; `changes`: how often a register got another value; `rows`: of video memory."""

    def __init__(self, is_tall: bool = False) -> None:
        self.rows = 1024 if is_tall else 512
        self.kept, self.page = dict(zip(range(0xE1, 0xE7), KEPT[is_tall])), PAGE[is_tall]
        self.registers = dict.fromkeys(range(0xE1, 0xE7), 0)
        self.changes = self.command = self.pixels = 0
        self.words: List[int] = []                      # of a packet that is not whole
        self.last: Optional[Sequence[int]] = None       # colour and vertex from which an open polyline continues

    @property
    def wanted(self) -> int:
        """The length of the packet whose first words are held, or 0 if none are."""
        return TABLE[self.words[0] >> 24][1] if self.words and not self.last else 0

    def clear(self) -> None:
        """Drops what is unfinished, as GP1(00h) and GP1(01h) do."""
        self.words, self.pixels, self.last = [], 0, None

    def is_idle(self) -> bool:
        """Returns whether the next word begins a packet."""
        return not (self.words or self.pixels or self.last)

    def control(self, word: int) -> None:
        """Takes a word for GP1."""
        if word >> 24 & 0x3F in RESETS:
            self.clear()
        if not word >> 24 & 0x3F:
            self.registers = dict.fromkeys(self.registers, 0)
            self.changes += 1

    def push(self, words: Sequence[int]) -> Iterator[Tuple[str, List[int], int]]:
        """Returns the packets that `words` complete: name, words, and how many of `words` were taken with it."""
        at, end = 0, len(words)
        while at < end:
            if self.pixels:
                taken = min(self.pixels, end - at)
                self.pixels -= taken
                at += taken
            elif self.last:
                at += 1
                joint = self.joint(words[at - 1], self.last)
                if joint:
                    yield (*joint, at)
            else:
                piece, begin = [*self.words, *words[at:at + PIECE]], 0
                at, self.words = at - len(self.words), []
                while begin < len(piece):
                    name, wanted = TABLE[piece[begin] >> 24]
                    packet = piece[begin:begin + wanted]
                    if len(packet) < wanted:
                        break
                    begin += wanted
                    if name in CHANGING:
                        self.change(name, packet)
                    yield name, packet, at + begin
                    if name in OPENING and (self.pixels or self.last):
                        break
                at += begin
                if len(packet) < wanted and at + len(packet) == end:
                    self.words = packet
                    return

    def change(self, name: str, words: List[int]) -> None:
        """Does what a packet changes here: registers, an open load, an open polyline."""
        opcode = words[0] >> 24
        if name == POLYGON:
            if opcode & TEXTURED:
                attribute = words[5 if opcode & SHADED else 4] >> 16
                self.set(0xE1, self.registers[0xE1] & ~self.page | attribute & self.page)
        elif name == ENVIRONMENT:
            self.set(opcode, words[0] & self.kept[opcode])
        elif name == LOAD:
            self.pixels = data_words(words[2])
        elif opcode & POLYLINE:
            self.command, self.last = words[0], words[-2:] if opcode & SHADED else (words[0], words[-1])

    def set(self, opcode: int, value: int) -> None:
        """Sets a register."""
        if self.registers[opcode] != value:
            self.registers[opcode] = value
            self.changes += 1

    def joint(self, word: int, last: Sequence[int]) -> Optional[Packet]:
        """Takes a word after the vertex `last` of a polyline. Returns the packet that it completes, if any."""
        is_shaded = self.command >> 24 & SHADED
        if not self.words and ends_polyline(word):
            self.last = None
            return FINISH, [word]
        self.words.append(word)
        if len(self.words) < (2 if is_shaded else 1):
            return None
        self.last = tuple(self.words) if is_shaded else (last[0], word)
        self.words = []
        return LINE, [self.command, *last, *self.last]
