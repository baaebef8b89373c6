"""The records of a capture: their kinds, and their bytes. docs/CAPTURE.md has the format."""
import sys
from array import array
from typing import Iterable, Iterator, List, Tuple

END, RAM, GP0, GP1, READ, STAT, DMA, BEGIN, TURN, SKIP = range(10)
KINDS = ('End', 'Ram', 'Gp0', 'Gp1', 'Read', 'Stat', 'Dma', 'Begin', 'Turn', 'Skip')
NOT_FLAT = (RAM, DMA, BEGIN, TURN)
MOST_WORDS, MOST_READS, MOST_RAM = 0xFFFFFF, 262144, 524288
MOST = {RAM: MOST_RAM, GP0: MOST_WORDS, GP1: 1, READ: MOST_READS, STAT: 1, TURN: MOST_READS, SKIP: MOST_READS}
HEADS = {1: b'PSXGPUC1', 2: b'PSXGPUC2', 3: b'PSXGPUC3'}
VERSIONS = {head: version for version, head in HEADS.items()}
SNAPSHOT = b'PSXGPUS1'
Record = Tuple[int, int, 'array[int]']      # kind, count, words
Plain = Tuple[int, int, List[int]]          # the same with a list
WANTED = {GP1: 1, DMA: 3, BEGIN: 3}         # words of other records than Gp0 and Ram
SINGLE = GP0 << 24 | 1                      # the tag of a Gp0 record with one word


def little(words: "array[int]") -> "array[int]":
    """Turns an array between the file's order of bytes and the machine's. Returns it."""
    if sys.byteorder == 'big':
        words.byteswap()
    return words


def encode(kind: int, count: int, words: Iterable[int] = ()) -> bytes:
    """Returns a record as bytes. Those of an array of words are copied at once."""
    if isinstance(words, array) and words.typecode == 'I':
        return little(array('I', [kind << 24 | count])).tobytes() + little(words[:]).tobytes()
    return little(array('I', [kind << 24 | count, *words])).tobytes()


def is_allowed(version: int, kind: int, count: int) -> bool:
    """Returns whether a tag of this kind and count is valid in a capture of this version."""
    if kind > (DMA if version == 1 else SKIP):
        return False
    if kind in (DMA, BEGIN):
        return count == 2 or kind == DMA and count == 6
    return count == 0 if kind == END else 1 <= count <= MOST[kind]


def count_of(kind: int, count: int) -> int:
    """Returns the number of events of a record."""
    return 1 if kind in (GP1, STAT, DMA, BEGIN) else count


def events(found: Iterable[Plain]) -> Iterator[Plain]:
    """Returns the events of records, each as a record of one event: (kind, count, words)."""
    for kind, count, words in found:
        if kind == RAM:
            for k in range(count):
                yield RAM, 1, [words[0] + 4 * k, words[1 + k]]
        elif kind == GP0:
            for word in words:
                yield GP0, 1, [word]
        elif kind in (READ, TURN, SKIP):
            for _ in range(count):
                yield kind, 1, []
        else:
            yield kind, count, words


def first_events(stream: Iterable[Record], n: int) -> Iterator[Record]:
    """Returns the records of the first n events, the last one cut where it has more."""
    for kind, count, words in stream:
        if n <= 0:
            return
        its_events = count_of(kind, count)
        if its_events > n:
            count, words = n, words[:n + (kind == RAM)]
        yield kind, count, words
        n -= its_events


def later_events(stream: Iterable[Record], n: int) -> Iterator[Record]:
    """Returns the records after the first n events."""
    for kind, count, words in stream:
        its_events = count_of(kind, count)
        if its_events > n > 0:
            words = array('I', [words[0] + 4 * n]) + words[1 + n:] if kind == RAM else words[n:]
            count -= n
        if its_events > n:
            yield kind, count, words
        n = max(0, n - its_events)
