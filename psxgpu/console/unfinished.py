"""What the words of the ports have begun and not finished."""
from array import array

from psxgpu.packets.grammar import RESETS, STORE, data_words
from psxgpu.packets.split import Splitter


class Unfinished:
    """Follows both ports: an open packet, load or polyline (`splitter`), and the reads of an open store (`left`)."""

    def __init__(self) -> None:
        self.splitter, self.left = Splitter(), 0

    def push(self, words: 'array[int]') -> None:
        """Words of GP0 are written."""
        for name, packet, _ in self.splitter.push(words):
            if name == STORE:
                self.store(packet[2])

    def store(self, size: int) -> None:
        """A store is open from now on."""
        self.left = data_words(size)

    def control(self, word: int) -> None:
        """A word of GP1 is written."""
        self.splitter.control(word)
        if word >> 24 & 0x3F in RESETS:
            self.left = 0

    def is_idle(self) -> bool:
        """Returns whether nothing is unfinished."""
        return self.splitter.is_idle() and not self.left
