"""The checksums that a test program compares: CRC-32, as `program/reads.s` keeps it."""
import struct
import zlib
from typing import Iterable, Iterator, List

from psxgpu.console.plan import Reads

PART, ACROSS, DOWN = 64, 16, 8      # cells of a part's side; parts of video memory
ROW = 2 * PART                      # bytes of a part's row


def table() -> List[int]:
    """Returns the CRC-32 of each byte, as the player's table has it."""
    values = list(range(256))
    for _ in range(8):
        values = [value >> 1 ^ (0xEDB88320 if value & 1 else 0) for value in values]
    return values


def inverted(crc: int) -> int:
    """Returns a CRC without its last inversion, as the player keeps it."""
    return crc ^ 0xFFFFFFFF


def parts(cells: bytes) -> List[int]:
    """Returns the CRC of each part of a dump of video memory, from the left, rows from the top."""
    rows = [cells[at:at + ROW] for at in range(0, len(cells), ROW)]
    return [inverted(zlib.crc32(b''.join(rows[PART * ACROSS * down + across:PART * ACROSS * (down + 1):ACROSS])))
            for down in range(DOWN) for across in range(ACROSS)]


def of_reads(words: Iterator[int], reads: Iterable[Reads]) -> int:
    """Returns the CRC of the checked bytes of the words that are read."""
    crc = 0
    for number, size in reads:
        for _ in range(number):
            crc = zlib.crc32(struct.pack('<I', next(words))[:size], crc)
    return inverted(crc)
