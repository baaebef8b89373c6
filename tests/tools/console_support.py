"""What the tests of the console's programs share."""
import io
import os
import struct
import subprocess
import zlib

from psxgpu.console import image, segments
from psxgpu.console.assembler import assemble
from psxgpu.console.orders import AGAIN, SAME, WORDED, Kind
from psxgpu.stream import GP0, GP1, READ, SKIP, Stream
from tests import support

BEGINS = 6 + 12 + 6             # events of Listed.reset
MARK = 0x3F


def events(path):
    """What reaches the ports: ('gp0', word), ('gp1', word), ('read',). Marks and polls are left out."""
    flat = subprocess.run([support.PLAYER, 'flat', path], stdout=subprocess.PIPE, check=True).stdout
    return events_of(flat)


def events_of(flat):
    """The same of the bytes of a flat capture."""
    out = []
    for kind, count, words in Stream(io.BytesIO(flat), 'capture'):
        if kind == GP0:
            out += [('gp0', word) for word in words]
        elif kind == GP1 and words[0] >> 24 & 0x3F != MARK:
            out.append(('gp1', words[0]))
        elif kind in (READ, SKIP):
            out += [('read',)] * count
    return out


def unpacked(body):
    """The orders of packed orders, without the zeros after the order `more` that ends a segment."""
    deflate, at, out = zlib.decompressobj(-15), 4, []
    while at + 2 <= len(body):
        size = int.from_bytes(body[at:at + 2], 'little')
        segment = deflate.decompress(body[at + 2:at + 2 + size])
        if len(segment) != segments.SLOT:
            break                   # what fills the last sector
        out += struct.unpack('<%dI' % (segments.SLOT // 4), segment)
        at += 2 + size
    return out


def follow(program):
    """What the orders of a program without a check write and read, as the player does it."""
    _, labels = assemble(image.source(), image.ADDRESS, image.NAMES)
    body = struct.unpack('<%dI' % (len(program) // 4 - 512), program[2048:])
    at = (labels['orders'] - image.ADDRESS) // 4
    if body[at] == Kind.MORE << 24:
        body, at = unpacked(program[2048 + 4 * at:]), 0
    return followed(body, at)


def followed(body, at):
    """What a list of orders writes and reads."""
    out = []
    while True:
        tag = body[at]
        kind, flags, n = tag >> 24 & 0x3F, tag >> 24 & 0xC0, tag & 0xFFFFFF
        at += 1
        if kind == Kind.END:
            return out
        if kind == Kind.MORE:
            at += -at % (segments.SLOT // 4)
        elif kind < WORDED:
            words = body[at:at + n]
            if flags == SAME:
                words = list(body[at:at + 1]) * n
            elif flags == AGAIN:
                index = (body[at] - image.ADDRESS) // 4
                words = body[index:index + n]
            at += 1 if flags else n
            out += [('gp1' if kind >= Kind.CONTROL else 'gp0', word) for word in words]
        elif kind <= Kind.READ_LOOSE:
            out += [('read',)] * n


def build_processor(folder):
    """The path of the bare console, built."""
    path = os.path.join(folder, 'processor')
    here = os.path.join(support.TOP, 'tests', 'console')
    sources = [os.path.join(here, name) for name in ('processor.c', 'gpu.c')]
    subprocess.run(['gcc', '-std=gnu99', '-Wall', '-Wextra', '-Werror', '-O2', '-I',
                    os.path.join(support.TOP, 'recorder'), *sources, '-o', path], check=True)
    return path
