"""Reads a GPU dump as a stream, with little memory."""
from __future__ import annotations

from array import array
from collections import Counter
from typing import Iterator

from psxgpu.command import Readable
from psxgpu.dumps.format import HEAD, MOST_WORDS, NAME, PORT0, PORT1, READBACK, TITLES
from psxgpu.packing import Damaged
from psxgpu.stream import BEGINNINGS, HEADS, little
from psxgpu.errors import ToolError

BLOCK = 1 << 18                 # bytes that are read at a time
# Types whose packets may be long. They come in parts, since each of their words is an event of its own.
LONG = (PORT0, PORT1, READBACK)
MOST_SHORT = 1 << 14            # words of a packet of another known type


class Dump:
    """A GPU dump, from a file that returns bytes. Iterated it yields (type, words) for each packet of a known type.

    A packet for a port, or of words read back, may come in several parts. `unknown` counts the packets of other types.
    A dump that ends inside a packet, or has a packet that is longer than its type can be, is `Damaged`, with the byte;
    the words for a port before that come first. `place` is the byte of the last packet.
    """

    def __init__(self, file: Readable, name: str) -> None:
        self.file, self.name = file, name
        self.block, self.at = array('I'), 0
        self.before, self.rest = len(HEAD), b''     # bytes before the block; bytes at its end that are no word
        self.place = self.before
        self.unknown: Counter[int] = Counter()
        head = file.read(len(HEAD))
        if head != HEAD:
            raise ToolError('%s: %s' % (name, fault_of(head)))

    def fill(self) -> bool:
        """Reads the next block. The words that are left come first. Returns whether there are more words."""
        data = self.rest + self.file.read(BLOCK)
        whole = len(data) // 4 * 4
        self.before += 4 * self.at
        self.block, self.at = self.block[self.at:] + little(array('I', data[:whole])), 0
        self.rest = data[whole:]
        return whole > 0

    def fault(self, place: int, reason: str) -> Damaged:
        """Returns the error of a byte."""
        return Damaged('%s: byte %d: %s' % (self.name, place, reason))

    def cut(self) -> Damaged:
        """Returns the error of a dump that ends inside a packet, at the byte of its end."""
        end = self.before + 4 * len(self.block) + len(self.rest)
        return self.fault(end, 'the dump ends inside a packet, which begins at byte %d' % self.place)

    def parts(self, count: int) -> Iterator[array[int]]:
        """Takes the next `count` words in parts, as they are read. Raises `Damaged` if they are fewer."""
        while count:
            if self.at == len(self.block) and not self.fill():
                raise self.cut()
            part = self.block[self.at:self.at + count]
            self.at += len(part)
            count -= len(part)
            yield part

    def whole(self, kind: int, count: int) -> array[int]:
        """Takes the next `count` words together."""
        if count > MOST_SHORT:
            raise self.fault(self.place, 'a packet %s of %d words' % (TITLES[kind], count))
        words = array('I')
        for part in self.parts(count):
            words += part
        return words

    def edge(self) -> Iterator[tuple[int, array[int]]]:
        """Takes the next packet, whatever its type, and wherever its words are."""
        self.place = self.before + 4 * self.at
        tag = self.block[self.at]
        kind, count = tag >> 24, tag & MOST_WORDS
        self.at += 1
        if kind in LONG:
            for part in self.parts(count):
                yield kind, part
            if not count:
                yield kind, array('I')
        elif kind in TITLES:
            yield kind, self.whole(kind, count)
        else:
            self.unknown[kind] += 1
            for _ in self.parts(count):
                pass

    def __iter__(self) -> Iterator[tuple[int, array[int]]]:
        while True:
            block, at, end = self.block, self.at, len(self.block)
            while at < end:
                tag = block[at]         # of a packet for GP0 it is the count
                to = at + 1 + tag
                if tag > MOST_WORDS or to > end:
                    break
                yield PORT0, block[at + 1:to]
                at = to
            self.at = at
            if at < end:
                yield from self.edge()
            elif not self.fill():
                break
        if self.rest:
            self.place = self.before
            raise self.cut()


def fault_of(head: bytes) -> str:
    """Returns why these first bytes are those of no dump."""
    if not head:
        return 'empty'
    kinds = ['cut inside its header'] * HEAD.startswith(head)
    kinds += ['of another version: %r' % head] * head.startswith(NAME)
    kinds += ['a capture already'] * (head[:8] in HEADS.values())
    kinds += [kind for begin, kind in BEGINNINGS.items() if head.startswith(begin)]
    return 'not a GPU dump, ' + (kinds[0] if kinds else 'it begins with %r' % head)
