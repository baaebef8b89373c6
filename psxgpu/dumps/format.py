"""The format of a GPU dump: 14 bytes, then packets.

    14 bytes    PSXGPUDUMPv1 and two zero bytes
    packets     a word (32 bits, low byte first): in bits 0 to 23 how many words follow, in bits 24 to 31 the type

The end of the file is the end of the dump. docs/DUMPS.md says what of this is known for sure.
"""
from __future__ import annotations

from array import array
from typing import Iterable

from psxgpu.stream import little

HEAD = b'PSXGPUDUMPv1\0\0'
NAME = HEAD[:10]                # what a dump of any version begins with
PORT0, PORT1, VSYNC, DISCARD, READBACK, TRACE_BEGIN, GPU_VERSION = range(7)
GAME, FORMAT, COMMENT = 0x10, 0x11, 0x12
TEXTS = {GAME: 'game', FORMAT: 'format', COMMENT: 'comment'}
TITLES = {PORT0: 'GP0', PORT1: 'GP1', VSYNC: 'VSync', DISCARD: 'discard', READBACK: 'readback',
          TRACE_BEGIN: 'trace begin', GPU_VERSION: 'GPU version', **TEXTS}
OLD_1MB, NEW_1MB, NEW_2MB = range(3)
GPUS = ('old, 1 MB', 'new, 1 MB', 'new, 2 MB')
MOST_WORDS = 0xFFFFFF           # of one packet
# Processor cycles of a frame. A VSync has the cycles since the beginning of the dump.
CYCLES = {'NTSC': 33868800 // 60, 'PAL': 33868800 // 50}


def text_of(words: Iterable[int]) -> str:
    """Returns the text of a packet: bytes of UTF-8 up to a zero. Controls become spaces, so that it is one line."""
    data = little(array('I', words)).tobytes().split(b'\0')[0]
    return ''.join(letter if letter.isprintable() else ' ' for letter in data.decode('utf-8', 'replace'))


def words_of(text: str) -> array[int]:
    """Returns the words of a text. At least one zero byte ends it."""
    data = text.encode('utf-8', 'replace') + b'\0'
    return little(array('I', data + bytes(-len(data) % 4)))


def packet(kind: int, words: Iterable[int] = ()) -> array[int]:
    """Returns a packet as words."""
    held = array('I', words)
    return array('I', [kind << 24 | len(held)]) + held
