#!/usr/bin/env python3
"""Packs the conformance suite for the crate: rust/psxgpu/src/conformance/suite.bin.

    python3 -m rust.pack_suite [OUT]

It has the tests that `psxgpu conform --write` writes, with the cells, words and pictures that they expect. PLAYER
names psxgpu_tool, which makes the flat captures of tests with DMA. The same suite gives the same bytes. The file begins
with the length of what is packed; a block of LZ4 follows. rust/psxgpu/src/conformance/packed.rs reads it.
"""
from __future__ import annotations

import os
import struct
import sys
from itertools import groupby
from typing import Dict, Iterator, List, Tuple

from psxgpu.commands.conform import every_test
from psxgpu.conformance.folder import MACHINE, MAKER, Folder, found_program
from psxgpu.conformance.released import SUITE, ignored_runs
from psxgpu.conformance.suite import PSX_SPX, Test
from psxgpu.output import write_whole
from psxgpu.output.folders import Folder as Output

OUT = os.path.join(os.path.dirname(os.path.abspath(__file__)), 'psxgpu', 'src', 'conformance', 'suite.bin')
SHORTEST, FARTHEST, LAST_LITERALS, NO_MATCH_AFTER = 4, 65535, 5, 12     # of a block of LZ4
MOST_TRIED = 64                     # places at which a match is looked for
NO_PICTURE_ASKED, A_PICTURE, NOTHING_SHOWN = range(3)
DMA, TALL = 1, 2                    # what a test needs


def text(words: str) -> bytes:
    """Returns a text after its length."""
    data = words.encode()
    return struct.pack('<H', len(data)) + data


def block(data: bytes) -> bytes:
    """Returns bytes after their number."""
    return struct.pack('<I', len(data)) + data


def cells(test: Test) -> bytes:
    """Returns the cells that are not 0, as runs of a row: x, y, how many, and the cells; their number is first."""
    places = sorted((y, x) for (x, y), value in test.draft.cells.items() if value)
    runs: List[bytes] = []
    for _, some in groupby(enumerate(places), key=lambda pair: (pair[1][0], pair[1][1] - pair[0])):
        row = [place for _, place in some]
        values = [test.draft.cells[x, y] for y, x in row]
        runs.append(struct.pack('<3H%dH' % len(row), row[0][1], row[0][0], len(row), *values))
    return struct.pack('<I', len(runs)) + b''.join(runs)


def ignored(test: Test) -> bytes:
    """Returns the runs of cells whose value does not matter: their number, then x, y and how many."""
    runs = list(ignored_runs(test))
    return struct.pack('<H', len(runs)) + b''.join(struct.pack('<3H', *run) for run in runs)


def words(test: Test) -> bytes:
    """Returns the words that have to be read, each with its mask, after their number."""
    expected = test.draft.words
    return struct.pack('<H', len(expected)) + b''.join(struct.pack('<II', one.word, one.mask) for one in expected)


def picture(test: Test) -> bytes:
    """Returns the picture that has to be shown."""
    wanted = test.draft.picture
    if wanted is None:
        return bytes([NOTHING_SHOWN if test.draft.wants_no_picture else NO_PICTURE_ASKED])
    return struct.pack('<BHH', A_PICTURE, wanted.width, wanted.height) + wanted.pixels


def packed_test(test: Test, flat: bytes) -> bytes:
    """Returns a test. `flat`: its capture as words to the ports alone, or nothing if that is the same."""
    needs = DMA * bool(test.needs & MACHINE) | TALL * (test.version == 3)
    return b''.join((text(test.full_name), text(test.says), text(test.section),
                     struct.pack('<BB', test.decides == PSX_SPX, needs), block(test.data), block(flat), cells(test),
                     ignored(test), words(test), picture(test)))


def suite() -> bytes:
    """Returns all tests, after the number of the suite and theirs."""
    tests = every_test()
    files = Folder(Output('', MAKER, ''), found_program(None))
    out = [struct.pack('<HH', SUITE, len(tests))]
    for test in tests:
        flat = files.flat(test) if test.needs & MACHINE else b''
        if flat is None:
            sys.exit('pack_suite.py: %s has DMA: PLAYER has to name psxgpu_tool' % test.full_name)
        out.append(packed_test(test, flat))
    return b''.join(out)


def length_bytes(length: int) -> bytes:
    """Returns what follows a field of four bits that is full."""
    return b'\xff' * ((length - 15) // 255) + bytes([(length - 15) % 255]) if length >= 15 else b''


def sequence(literals: bytes, match: int, offset: int) -> bytes:
    """Returns literals and a match of this length; without one if it is 0."""
    rest = match - SHORTEST if match else 0
    head = bytes([min(len(literals), 15) << 4 | min(rest, 15)]) + length_bytes(len(literals)) + literals
    return head + struct.pack('<H', offset) + length_bytes(rest) if match else head


def length_of_match(data: bytes, one: int, other: int, most: int) -> int:
    """Returns how many bytes are the same at two places, at most `most`."""
    length, step = 0, 1
    while length < most and data[one + length:one + length + step] == data[other + length:other + length + step]:
        length += step
        step *= 2
    while step > 1:
        step //= 2
        if data[one + length:one + length + step] == data[other + length:other + length + step]:
            length += step
    return min(length, most)


def matches(data: bytes) -> Iterator[Tuple[int, int, int]]:
    """Yields the matches to take: where, their length and how far before it the same bytes are."""
    seen: Dict[bytes, List[int]] = {}
    at, end = 0, len(data) - NO_MATCH_AFTER
    while at < end:
        places = seen.setdefault(data[at:at + SHORTEST], [])
        near = [place for place in places[-MOST_TRIED:] if at - place <= FARTHEST]
        found = max(((length_of_match(data, place, at, len(data) - LAST_LITERALS - at), place) for place in near),
                    default=(0, 0))
        places.append(at)
        if found[0] >= SHORTEST:
            yield at, found[0], at - found[1]
            for inside in range(at + 1, min(at + found[0], at + 64, end)):
                seen.setdefault(data[inside:inside + SHORTEST], []).append(inside)
        at += max(found[0], 1)


def compressed(data: bytes) -> bytes:
    """Returns bytes as a block of LZ4."""
    out, done = [], 0
    for at, length, offset in matches(data):
        out.append(sequence(data[done:at], length, offset))
        done = at + length
    return b''.join(out) + sequence(data[done:], 0, 0)


def packed() -> bytes:
    """Returns the file."""
    data = suite()
    return struct.pack('<I', len(data)) + compressed(data)


def main() -> None:
    """Writes the file."""
    out = sys.argv[1] if len(sys.argv) > 1 else OUT
    write_whole(out, packed())
    print('%s: %d bytes' % (os.path.relpath(out), os.path.getsize(out)))


if __name__ == '__main__':
    main()
