"""Cuts words for GP0 into packets of a dump: one for each command, a load or a polyline with all its words."""
from __future__ import annotations

from array import array

from psxgpu.dumps.format import MOST_WORDS, PORT0
from psxgpu.packets.grammar import LINE, LOAD, POLYLINE, SHADED, data_words, ends_polyline, name_and_length

# By opcode: the words of the command, of a polyline those up to its second vertex.
LENGTHS = [name_and_length(opcode << 24)[1] for opcode in range(256)]
IS_LOAD = [name_and_length(opcode << 24)[0] == LOAD for opcode in range(256)]
IS_POLYLINE = [name_and_length(opcode << 24)[0] == LINE and bool(opcode & POLYLINE) for opcode in range(256)]
IS_LONG = [load or line for load, line in zip(IS_LOAD, IS_POLYLINE)]


class Cutter:
    """Takes words as they come. `out` grows by the packets that are whole, as words of the dump."""

    def __init__(self) -> None:
        self.out, self.held = array('I'), array('I')
        self.seen = 0           # words of the held polyline in which there is no end word

    def length(self, words: array[int], at: int) -> int:
        """Returns the words of the load or polyline at `at`, more than there are if they are not known yet."""
        opcode = words[at] >> 24
        if IS_LOAD[opcode]:
            return 3 + data_words(words[at + 2]) if at + 2 < len(words) else 3
        step = 2 if opcode & SHADED else 1
        first = at + max(LENGTHS[opcode], self.seen)
        for index in range(first, len(words), step):
            if ends_polyline(words[index]):
                self.seen = 0
                return index + 1 - at
        left = max(0, len(words) - first)
        self.seen = first - at + (left + step - 1) // step * step
        return len(words) + 1 - at

    def push(self, words: array[int]) -> None:
        """Takes words of GP0."""
        if self.held:
            self.held += words
            words = self.held
        out, at, end = self.out, 0, len(words)
        while at < end:
            opcode = words[at] >> 24
            to = at + (self.length(words, at) if IS_LONG[opcode] else LENGTHS[opcode])
            if to > end:
                break
            out.append(PORT0 << 24 | to - at)
            out += words[at:to]
            at = to
        if at or words is not self.held:
            self.held = words[at:]
        if len(self.held) > MOST_WORDS:
            self.rest()

    def rest(self) -> None:
        """Ends what is not whole, as before another event: its words are packets of their own."""
        for at in range(0, len(self.held), MOST_WORDS):
            part = self.held[at:at + MOST_WORDS]
            self.out.append(PORT0 << 24 | len(part))
            self.out += part
        self.held, self.seen = array('I'), 0

    def take(self) -> array[int]:
        """Returns the packets so far."""
        out, self.out = self.out, array('I')
        return out
