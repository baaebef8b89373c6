"""Skims the records of a capture or of a snapshot: what they are and how many events they have, not their words."""
import os
import struct
from typing import IO, Iterator, List, Optional, Tuple

from psxgpu.stream import BEGIN, DMA, GP0, GP1, HEADS, RAM, READ, SKIP, SNAPSHOT, STAT, count_of

MAIN_MEMORY = 0x200000
MOST_PENDING = 12           # words of the longest packet
FLIP, MARK = 0x05, 0x3F       # words of GP1 that end a frame: a new display start, a recorder's mark
BLOCK = 1 << 20


def take_words(file: IO[bytes], n: int) -> Tuple[int, ...]:
    """Returns the next n words. Raises ValueError if the file ends before."""
    data = file.read(4 * n)
    if len(data) < 4 * n:
        raise ValueError('cut at byte %d' % file.seek(0, os.SEEK_END))
    return struct.unpack('<%dI' % n, data)


def past_state(file: IO[bytes]) -> int:
    """Reads a snapshot's state up to its first record. Returns the number of events played before."""
    height, low, high = take_words(file, 3)
    take_words(file, 13)
    pending, = take_words(file, 1)
    if pending == 1:
        take_words(file, min(take_words(file, 1)[0], MOST_PENDING))
    elif pending == 2:
        take_words(file, 5)
    elif pending == 3 and take_words(file, 4)[3]:
        take_words(file, 1)
    if take_words(file, 1)[0]:
        take_words(file, 5)
    take_words(file, {1: 4, 2: 1}.get(take_words(file, 1)[0], 0))
    file.seek(2048 * height + MAIN_MEMORY, 1)
    return high << 32 | low


def past_head(file: IO[bytes]) -> int:
    """Reads up to the first record. Returns the number of events before it. Raises ValueError if it is not a
    capture."""
    head = file.read(8)
    if head == SNAPSHOT:
        return past_state(file)
    if head not in HEADS.values():
        raise ValueError('not a capture')
    return 0


def records(file: IO[bytes]) -> Iterator[Tuple[int, int, int]]:
    """Returns the records up to End: kind, number of events, number of words after the tag."""
    while True:
        tag, = take_words(file, 1)
        kind, count = tag >> 24, tag & 0xFFFFFF
        if kind == 0:
            return
        words = {RAM: count + 1, GP0: count, GP1: 1, DMA: 3, BEGIN: 3}.get(kind, 0)
        at = file.tell()
        if kind > SKIP:
            raise ValueError('byte %d: %08x begins no record' % (at - 4, tag))
        yield kind, count_of(kind, count), words
        file.seek(at + 4 * words)


def reads_before(path: str, events: List[int]) -> List[int]:
    """Returns for each number of a rising list of events how many lines `play` has written when that event is done."""
    counts: List[int] = []
    reads = 0
    with open(path, 'rb') as file:
        done = past_head(file)
        for kind, size, _ in records(file):
            shows = kind in (READ, STAT)
            while len(counts) < len(events) and events[len(counts)] <= done + size:
                counts.append(reads + shows * max(0, events[len(counts)] - done))
            if len(counts) == len(events):
                return counts
            reads += shows * size
            done += size
    return counts + [reads] * (len(events) - len(counts))


def frames(path: str, opcode: int = FLIP) -> Tuple[List[int], int]:
    """Returns the events that end a frame, and the number of the last event."""
    found = []
    with open(path, 'rb') as file:
        done = past_head(file)
        for kind, size, _ in records(file):
            done += size
            if kind == GP1 and take_words(file, 1)[0] >> 24 & 0x3F == opcode:
                found.append(done)
    return found, done


def copy_bytes(file: IO[bytes], out: IO[bytes], count: int) -> None:
    """Copies the next `count` bytes."""
    while count > 0:
        piece = file.read(min(count, BLOCK))
        if not piece:
            raise ValueError('cut at byte %d' % file.tell())
        out.write(piece)
        count -= len(piece)


def copy_first(path: str, last: int, out: IO[bytes]) -> None:
    """Writes the capture or snapshot up to the event of this number, and End."""
    with open(path, 'rb') as file:
        done = past_head(file)
        whole = file.tell()
        rest: Optional[Tuple[int, int]] = None
        for kind, size, words in records(file):
            if done + size > last:
                rest = kind, last - done
                break
            done += size
            whole += 4 + 4 * words
        file.seek(0)
        copy_bytes(file, out, whole)
        if rest and rest[1]:
            kind, count = rest
            out.write(struct.pack('<I', kind << 24 | count))
            file.seek(4, 1)
            copy_bytes(file, out, 4 * (count + (kind == RAM)) if kind in (RAM, GP0) else 0)
    out.write(bytes(4))
