"""A GPU dump as the bytes of a capture.

Words for GP0 and GP1 are the words of the capture. A VSync is the mark of a frame, GP1(3Fh), numbered from 1. Words that
are discarded or read back are reads. A dump for a GPU of 2 MB is a capture of version 3, every other one of version 1.
"""
from __future__ import annotations

from array import array
from typing import Callable, Iterator, Optional

from psxgpu.dumps.format import (DISCARD, GPU_VERSION, GPUS, NEW_2MB, PORT0, PORT1, READBACK, TEXTS, TRACE_BEGIN, VSYNC,
                                 text_of)
from psxgpu.dumps.reader import Dump
from psxgpu.packing import Damaged
from psxgpu.stream import GP0, GP1, HEADS, MOST_READS, READ, little

END = bytes(4)
MARK, MOST_FRAMES = 0x3F000000, 0xFFFFFF
MOST_GATHERED = 1 << 16         # words of a record for GP0, and of a piece of the capture
MOST_TEXTS = 64                 # texts that are kept
UNSAID = '-' * 8                # the line of a word whose value the dump does not have


class Translation:
    """The bytes of a capture, piece by piece, from a dump. Each piece is whole records. The last one ends with End.

    If the dump is `Damaged`, the records before that come first, without End. `reads` receives a line for each word
    that is read: its digits as `play` prints them, or `--------` if the dump does not have them.
    """

    def __init__(self, dump: Dump, reads: Optional[Callable[[str], object]] = None) -> None:
        self.dump, self.reads = dump, reads
        self.out, self.tag_at = array('I'), -1      # records; where the one for GP0 begins that is still growing
        self.version, self.has_begun = 1, False
        self.events, self.frames = 0, 0
        self.begin: Optional[int] = None
        self.said: list[str] = []
        self.takers = {PORT1: self.port1, VSYNC: self.vsync, DISCARD: self.discard, READBACK: self.readback,
                       TRACE_BEGIN: self.trace_begin, GPU_VERSION: self.gpu_version}

    def __iter__(self) -> Iterator[bytes]:
        try:
            for kind, words in self.dump:
                if kind == PORT0:
                    self.port0(words)
                else:
                    self.close()
                    if kind in TEXTS:
                        self.text(kind, words)
                    else:
                        self.takers[kind](words)
                if len(self.out) > MOST_GATHERED:
                    yield self.take()
        except Damaged:
            yield self.take()
            raise
        yield self.take() + END

    def take(self) -> bytes:
        """Returns the records so far. The file header comes before the first of them."""
        self.close()
        head = b'' if self.has_begun else HEADS[self.version]
        self.has_begun = True
        out, self.out = self.out, array('I')
        return head + little(out).tobytes()

    def close(self) -> None:
        """Ends the record for GP0."""
        if self.tag_at >= 0:
            count = len(self.out) - self.tag_at - 1
            self.out[self.tag_at] = GP0 << 24 | count
            self.events += count
            self.tag_at = -1

    def port0(self, words: array[int]) -> None:
        """Adds words for GP0. Neighbouring ones are one record."""
        if self.tag_at < 0:
            if not words:
                return
            self.tag_at = len(self.out)
            self.out.append(0)
        self.out += words

    def gp1(self, word: int) -> None:
        """Adds a word for GP1."""
        self.out.extend((GP1 << 24 | 1, word))
        self.events += 1

    def port1(self, words: array[int]) -> None:
        """Adds words for GP1."""
        for word in words:
            self.gp1(word)

    def vsync(self, _: array[int]) -> None:
        """Adds the mark of a frame."""
        self.frames += 1
        self.gp1(MARK | self.frames & MOST_FRAMES)

    def read(self, count: int) -> None:
        """Adds reads of the data port."""
        self.events += count
        while count:
            part = min(count, MOST_READS)
            self.out.append(READ << 24 | part)
            count -= part

    def discard(self, words: array[int]) -> None:
        """Adds as many reads as the packet says, at most those of one store."""
        for count in words:
            if count > MOST_READS:
                raise self.dump.fault(self.dump.place, 'a discard of %d words; a store has at most %d'
                                      % (count, MOST_READS))
            self.read(count)
            if self.reads:
                self.reads((UNSAID + '\n') * count)

    def readback(self, words: array[int]) -> None:
        """Adds a read for each word."""
        self.read(len(words))
        if self.reads:
            self.reads(''.join(map('%08x\n'.__mod__, words)))

    def trace_begin(self, _: array[int]) -> None:
        """Keeps the number of events before the trace: they restore the state. The first one counts."""
        if self.begin is None:
            self.begin = self.events

    def gpu_version(self, words: array[int]) -> None:
        """Takes the version of the capture. One of 1024 rows has to be known before the first event."""
        number = words[0] if words else -1
        self.say('GPU: %s' % (GPUS[number] if 0 <= number < len(GPUS) else 'number %d' % number))
        if number == NEW_2MB and self.version != 3:
            if self.events:
                raise self.dump.fault(self.dump.place, 'the GPU of 2 MB is named after %d events' % self.events)
            self.version = 3

    def text(self, kind: int, words: array[int]) -> None:
        """Keeps a text."""
        self.say('%s: %s' % (TEXTS[kind], text_of(words)))

    def say(self, line: str) -> None:
        """Keeps a line, unless there are many."""
        if len(self.said) < MOST_TEXTS:
            self.said.append(line)

    def lines(self) -> list[str]:
        """Returns what the dump says of itself."""
        begin = 'none' if self.begin is None else 'after event %d' % self.begin
        return self.said + ['events: %d' % self.events, 'frames: %d' % self.frames, 'trace begin: ' + begin]

    def unknown_lines(self) -> list[str]:
        """Returns a line for each type that is not known."""
        return ['%d packets of the unknown type %02Xh are left out' % (count, kind)
                for kind, count in sorted(self.dump.unknown.items())]
