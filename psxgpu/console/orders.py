"""The list of orders that the console's player (`program/begin.s`) follows."""
import enum
from array import array
from typing import Dict, Iterable, Optional

AGAIN, SAME = 0x80, 0x40    # flags of a kind: words from earlier in the list; one word, repeated
LEAST = 4                   # a run or a repeat is longer than this


class Kind(enum.IntEnum):
    """The kinds of orders. Each is a label of the player, in small letters."""
    END = 0
    PACKETS = 1         # whole packets
    BEGUN = 2           # the beginning of a packet
    DATA = 3            # data words of a load
    SLOW = 4            # words of an open polyline
    RAW = 5             # other words of GP0
    CONTROL = 6         # a word of GP1 when the GPU is ready
    CONTROL_NOW = 7
    CONTROL_LATE = 8
    READ = 9            # reads of an open store
    READ_LOW = 10       # one read, of which the low half is a cell
    READ_LOOSE = 11     # reads with no store open
    BLANK = 12          # vertical blanks
    CHECK_READS = 13
    SUMS = 14
    MAP = 15
    TEXT = 16
    SAY = 17
    MORE = 18           # the next segment of packed orders
    EXPECT_STORE = 19   # the kinds from here on are those of programs of tests
    EXPECT = 20
    EXPECT_STATUS = 21
    JUDGE = 22
    BOX = 23
    SAY_FAILED = 24


WORDED = Kind.READ          # the kinds below this one have words
OF_TESTS = Kind.EXPECT_STORE


class Orders:
    """A list of orders that lies in main memory from `address` on. If it is to be packed, it has no AGAIN."""

    def __init__(self, address: int, packs: bool) -> None:
        self.words, self.address, self.packs = array('I'), address, packs
        self.tag: Optional[int] = None      # the index of the last tag, if that order may grow
        self.seen: Dict[bytes, int] = {}    # LEAST words, and their index in the list

    def add(self, kind: Kind, n: int = 0, words: Iterable[int] = (), flag: int = 0) -> None:
        """Appends an order that does not grow."""
        self.tag = None
        self.words.append((flag | kind) << 24 | n)
        self.words.extend(words)

    def grow(self, kind: Kind, words: 'array[int]') -> None:
        """Appends words to the last order, if it may grow and is of this kind, else to a new one."""
        if self.tag is None or self.words[self.tag] >> 24 != kind:
            self.add(kind)
            self.tag = len(self.words) - 1
        self.words[self.tag] += len(words)
        self.words.extend(words)

    def data(self, words: 'array[int]') -> None:
        """Appends data words of a load: runs of one word, repeats of earlier data words, and the rest as they are."""
        at = fresh = 0                      # words[fresh:at] are not appended yet
        while at + LEAST < len(words):
            n, index = run(words, at), None
            if n <= LEAST:
                index = self.seen.get(words[at:at + LEAST].tobytes())
                n = 0 if index is None else self.alike(index, words, at)
            if n <= LEAST:
                at += 1
                continue
            self.plain(words[fresh:at])
            if index is None:
                self.add(Kind.DATA, n, words[at:at + 1], SAME)
            else:
                self.add(Kind.DATA, n, (self.address + 4 * index,), AGAIN)
            at = fresh = at + n
        self.plain(words[fresh:])

    def plain(self, words: 'array[int]') -> None:
        """Appends data words as they are, and remembers them."""
        if not words:
            return
        self.grow(Kind.DATA, words)
        if self.packs:
            return
        for at in range(len(self.words) - len(words), len(self.words) - LEAST + 1):
            self.seen.setdefault(self.words[at:at + LEAST].tobytes(), at)

    def alike(self, index: int, words: 'array[int]', at: int) -> int:
        """Returns how many words from `at` on are in the list from `index` on."""
        n, step, most = 0, 4096, min(len(self.words) - index, len(words) - at)
        while step:
            while n + step <= most and self.words[index + n:index + n + step] == words[at + n:at + n + step]:
                n += step
            step //= 4
        return n


def run(words: 'array[int]', at: int) -> int:
    """Returns how many words from `at` on are equal."""
    n, word = 1, words[at]
    while at + n < len(words) and words[at + n] == word:
        n += 1
    return n
