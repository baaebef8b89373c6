"""Reads captures as a stream: record after record, whatever their length, with little memory.

    with reading('mine.capture') as file:
        for kind, count, words in Stream(file, 'mine.capture'):
            ..

A capture that breaks the format is `ToolError`, with the byte. docs/CAPTURE.md has the format.
"""
import re
from array import array
from typing import Dict, Iterator, NoReturn, Optional, Tuple

from psxgpu.command import Readable, ToolError
from psxgpu.records import (BEGIN, DMA, END, GP0, GP1, HEADS, KINDS, MOST_READS, MOST_WORDS, NOT_FLAT, RAM, READ,
                            SINGLE, SKIP, SNAPSHOT, STAT, TURN, VERSIONS, WANTED, Record, count_of, encode,
                            first_events, is_allowed, later_events, little)

__all__ = ['BEGIN', 'BEGINNINGS', 'DMA', 'END', 'GP0', 'GP1', 'HEADS', 'KINDS', 'MOST_READS', 'MOST_WORDS', 'NOT_FLAT',
           'RAM', 'READ', 'Readable', 'Record', 'SKIP', 'SNAPSHOT', 'STAT', 'Stream', 'TURN', 'count_of', 'encode',
           'first_events', 'is_allowed', 'later_events', 'little']

BLOCK = 1 << 18
MOST_SIZES = 4096
NONE = (END, 0, 0)
RUN = array('I', [SINGLE]) * 16384
# What files begin with that are often taken for captures.
BEGINNINGS = {b'\x1f\x8b': 'gzip', b'\x28\xb5\x2f\xfd': 'zstd', b'\xfd7zXZ': 'xz', b'PK\x03\x04': 'zip',
              b'\x89PNG': 'PNG', b'P6': 'PPM', SNAPSHOT: 'a snapshot'}


def what_is(head: bytes) -> str:
    """Returns what a file that begins with these eight bytes is instead of a capture."""
    if not head:
        return 'empty'
    later = re.fullmatch(rb'PSXGPU([CS])(\d)', head)
    if later and head != SNAPSHOT:
        number, known = int(later[2]), max(HEADS) if later[1] == b'C' else 1
        return '%s of version %d: this tool knows version%s' % (
            'a capture' if later[1] == b'C' else 'a snapshot', number, 's 1 to %d' % known if known > 1 else ' 1')
    kinds = [kind for begin, kind in BEGINNINGS.items() if head.startswith(begin)]
    return 'not a capture: %s' % (kinds[0] if kinds else 'it begins with %r' % head)


class Stream:
    """A capture, from a file that gives bytes. `version` is known at once; iterated it gives (kind, count, words) for
    each record, End left out. `words` is an array; that of a Ram record begins with the address. Neighbouring Gp0
    records of one word come as one, unless all are asked for as they are (`exact`)."""

    def __init__(self, file: Readable, name: str, exact: bool = False) -> None:
        self.file, self.name, self.exact = file, name, exact
        self.block, self.at = array('I'), 0
        self.before, self.rest = 8, 0       # bytes before the block; bytes at the end that are no word
        self.sizes: Dict[int, Tuple[int, int, int]] = {}    # by tag, of tags that were met
        head = file.read(8)
        if head not in VERSIONS:
            self.refuse(head)
        self.version = VERSIONS[head]

    def refuse(self, head: bytes) -> NoReturn:
        """Raises ToolError with what the file seems to be."""
        raise ToolError('%s: %s' % (self.name, what_is(head)))

    @property
    def place(self) -> int:
        """The byte offset of the next word."""
        return self.before + 4 * self.at

    def more(self, n: int) -> None:
        """Reads until n words are there. Raises ToolError if the file ends before."""
        self.before += 4 * self.at
        words = self.block[self.at:]
        self.at = 0
        while len(words) < n:
            data = self.file.read(max(BLOCK, 4 * (n - len(words))))
            words.extend(little(array('I', data[:len(data) // 4 * 4])))
            self.rest += len(data) % 4
            if not data and len(words) < n:
                self.block = words
                raise ToolError('%s: cut at byte %d, inside a record or before the End record'
                              % (self.name, self.before + 4 * len(words) + self.rest))
        self.block = words

    def take(self, n: int) -> "array[int]":
        """Returns the next n words."""
        if self.at + n > len(self.block):
            self.more(n)
        self.at += n
        return self.block[self.at - n:self.at]

    def singles(self) -> "Optional[array[int]]":
        """Returns the words of the next records, as far as they are Gp0 records of one word within the block. Returns
        None if the next record is none."""
        if self.at == len(self.block):
            self.more(1)
        block, at = self.block, self.at
        if at + 1 >= len(block) or block[at] != SINGLE:
            return None
        most = min((len(block) - at) // 2, len(RUN))
        low, n = 1, 4
        while n < most and block[at:at + 2 * n:2] == RUN[:n]:
            low, n = n, 4 * n
        n = min(n, most)
        while low < n:
            middle = (low + n + 1) // 2
            if block[at + 2 * low:at + 2 * middle:2] == RUN[:middle - low]:
                low = middle
            else:
                n = middle - 1
        self.at = at + 2 * low
        return block[at + 1:self.at:2]

    def tag(self) -> Tuple[int, int, int]:
        """Returns kind and count of the record whose tag is in the block, and the number of its words. Takes the tag.
        Raises ToolError if it is not a record."""
        tag = self.block[self.at]
        if tag not in self.sizes:
            kind, count = tag >> 24, tag & 0xFFFFFF
            if not is_allowed(self.version, kind, count):
                raise ToolError('%s: byte %d: %08x begins no record of version %d'
                              % (self.name, self.place, tag, self.version))
            if len(self.sizes) == MOST_SIZES:
                self.sizes.clear()
            self.sizes[tag] = kind, count, count + (kind == RAM) if kind in (RAM, GP0) else WANTED.get(kind, 0)
        self.at += 1
        return self.sizes[tag]

    def words(self) -> "array[int]":
        """Returns the words of the next records, as far as they are Gp0 records within the block whose tags were
        met."""
        block, at, end, sizes = self.block, self.at, len(self.block), self.sizes
        words = array('I')
        while at < end:
            kind, _, size = sizes.get(block[at], NONE)
            if kind != GP0 or at + size >= end:
                break
            words += block[at + 1:at + 1 + size]
            at += 1 + size
        self.at = at
        return words

    def kinds(self) -> Iterator[int]:
        """Returns the kinds of the records up to End. Neighbouring Gp0 records of one word may be one."""
        sizes = self.sizes
        while True:
            if self.singles():
                yield GP0
                continue
            block, at, end = self.block, self.at, len(self.block)
            while at < end:                     # records that were met, as long as they are within the block
                kind, _, size = sizes.get(block[at], NONE)
                if at + size >= end or not kind:
                    break
                at += 1 + size
                yield kind
            self.at = at
            if at == end:
                self.more(1)
            kind, _, size = self.tag()
            if kind == END:
                return
            self.take(size)
            yield kind

    def gathered(self) -> Iterator[Record]:
        """Returns the records, with neighbouring Gp0 records as one, as far as possible."""
        for kind, count, words in self:
            yield kind, count, words
            more = self.words() if kind == GP0 else None
            if more:
                yield GP0, len(more), more

    def __iter__(self) -> Iterator[Record]:
        while True:
            words = self.singles()
            if words:
                if self.exact:
                    yield from ((GP0, 1, array('I', (word,))) for word in words)
                else:
                    yield GP0, len(words), words
                continue
            kind, count, size = self.tag()
            if kind == END:
                return
            try:
                words = self.take(size)
            except ToolError:
                yield from self.beginning(kind, count)
                raise
            if kind == RAM:
                self.check_address(kind, count, words)
            yield kind, count, words

    def beginning(self, kind: int, count: int) -> Iterator[Record]:
        """Returns the events that are there of a record that is cut: each of their words is one."""
        words = self.block[self.at:]
        there = len(words) - (kind == RAM)
        if kind in (GP0, RAM) and there > 0:
            self.check_address(kind, count, words)
            yield kind, there, words

    def check_address(self, kind: int, count: int, words: "array[int]") -> None:
        """Raises ToolError if a Ram record is not within main memory."""
        if kind == RAM and (words[0] % 4 or words[0] + 4 * count > 0x200000):
            raise ToolError('%s: byte %d: not an address for %d words: %08x'
                          % (self.name, self.place - 4 * len(words), count, words[0]))
