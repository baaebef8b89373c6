#!/usr/bin/env python3
"""Completes a recording that was cut, or whose emulator ended before it: recorder/mend.py CAPTURE"""
import os
import struct
import sys
from typing import Callable, Dict

# How many words follow a record's tag, by its kind and its count.
WORDS: Dict[int, Callable[[int], int]] = {
    1: lambda n: n + 1, 2: lambda n: n, 3: lambda n: 1, 6: lambda n: 3, 7: lambda n: 3}


def mend(path: str) -> bool:
    """Appends End to the last whole record if it is missing. Returns whether it was."""
    with open(path, 'r+b') as file:
        if file.read(7) != b'PSXGPUC':
            raise ValueError('%s is no capture' % path)
        size, at = os.path.getsize(path), 8
        while at + 4 <= size:
            file.seek(at)
            (tag,) = struct.unpack('<I', file.read(4))
            length = 4 + 4 * WORDS.get(tag >> 24, lambda n: 0)(tag & 0xFFFFFF)
            if tag >> 24 == 0:
                return False
            if at + length > size:
                break
            at += length
        file.seek(at)
        file.truncate()
        file.write(bytes(4))
    return True


if __name__ == '__main__':
    if len(sys.argv) != 2:
        sys.exit(__doc__)
    try:
        print('made whole' if mend(sys.argv[1]) else 'it was whole')
    except (ValueError, OSError) as bad:
        sys.exit('mend: %s' % bad)
