"""Recordings whose emulator did not live to end them, or that were cut: what is whole of them, and how it ends."""
import os
import struct
from typing import IO, NamedTuple

from psxgpu.command import ToolError
from psxgpu.records import VERSIONS
from psxgpu.stream import BEGIN, DMA, END, GP0, GP1, RAM, is_allowed, what_is

WORDS = {GP1: 1, DMA: 3, BEGIN: 3}      # words after the tag


def length_of(tag: int) -> int:
    """Returns the bytes of a record, by its tag."""
    kind, count = tag >> 24, tag & 0xFFFFFF
    return 4 + 4 * (count + (kind == RAM) if kind in (GP0, RAM) else WORDS.get(kind, 0))


def rest_of(tag: int, data: bytes) -> bytes:
    """Returns the events that are there of a record that is cut, as a record. `data`: its bytes after the tag."""
    kind = tag >> 24
    count = len(data) // 4 - (kind == RAM)
    if kind not in (GP0, RAM) or count < 1:
        return b''
    return struct.pack('<I', kind << 24 | count) + data[:4 * (count + (kind == RAM))]


class Whole(NamedTuple):
    """What is whole of a recording: its first `size` bytes, and the bytes that have to follow, none if it is whole.
    `damage` is what is there instead of a record, if there is something: then what follows it is lost."""
    size: int
    rest: bytes
    damage: str = ''


def is_record(version: int, tag: int, file: IO[bytes]) -> bool:
    """Returns whether a tag begins a record. `file`: what is after the tag."""
    kind, count = tag >> 24, tag & 0xFFFFFF
    if not is_allowed(version, kind, count):
        return False
    data = file.read(4) if kind == RAM else b''
    if len(data) < 4:
        return True
    address, = struct.unpack('<I', data)
    return bool(address % 4 == 0 and address + 4 * count <= 0x200000)


def whole_of(file: IO[bytes], name: str) -> Whole:
    """Returns what is whole of a capture. Raises ToolError if it is not a capture."""
    size, at = file.seek(0, os.SEEK_END), 8
    file.seek(0)
    head = file.read(8)
    if head not in VERSIONS:
        raise ToolError('%s: %s' % (name, what_is(head)))
    while at + 4 <= size:
        file.seek(at)
        tag, = struct.unpack('<I', file.read(4))
        if tag == END:
            return Whole(at + 4, b'')
        if not is_record(VERSIONS[head], tag, file):
            return Whole(at, bytes(4), 'byte %d: %08x begins no record of version %d' % (at, tag, VERSIONS[head]))
        if at + length_of(tag) > size:
            file.seek(at + 4)
            return Whole(at, rest_of(tag, file.read()) + bytes(4))
        at += length_of(tag)
    return Whole(at, bytes(4))
