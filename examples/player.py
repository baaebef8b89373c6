#!/usr/bin/env python3
"""A player: it reads a capture on standard input, and writes what the mode asks for.

    python3 examples/player.py vram < examples/two-fills.capture > vram.bin
    psxgpu conform 'python3 examples/player.py'

Its GPU is a toy. Put your emulator in the place of toy_gpu. docs/PLAYER.md has the protocol.
"""
import os
import sys

# A checkout need not be installed.
sys.path.append(os.path.dirname(os.path.dirname(os.path.abspath(__file__))))

from psxgpu.command import ToolError  # noqa: E402
from psxgpu.stream import GP0, GP1, READ, SKIP, STAT, Stream, little  # noqa: E402
from toy_gpu import Gpu  # noqa: E402

MODES = ('vram', 'play', 'shot')
DONE, WRONG_ARGUMENTS, REFUSED = 0, 1, 2      # statuses


def play(gpu, kind, count, words, out):
    """Plays the events of a record. Adds the lines of what is read to `out`."""
    if kind == GP0:
        for word in words:
            gpu.gp0(word)
    elif kind == GP1:
        gpu.gp1(words[0])
    elif kind == STAT:
        out.append('%08x\n' % gpu.status())
    elif kind in (READ, SKIP):
        read = [gpu.read() for _ in range(count)]
        if kind == READ:
            out += ['%08x\n' % word for word in read]
    else:
        raise ToolError('main memory and DMA are not supported')


def output_of(mode, stream):
    """Plays a capture. Returns what the mode writes."""
    if stream.version == 3:
        raise ToolError('video memory of 1024 rows is not supported')
    gpu, lines = Gpu(), []
    for record in stream:
        play(gpu, *record, lines)
    if mode == 'play':
        return ''.join(lines + ['status %08x\n' % gpu.status()]).encode()
    if mode == 'vram':
        return little(gpu.vram).tobytes()
    width, height, pixels = gpu.picture()
    if not pixels:
        raise ToolError('no picture')
    return b'P6\n%d %d\n255\n' % (width, height) + pixels


def main(words):
    """Plays standard input. Returns the status."""
    if len(words) != 1 or words[0] not in MODES:
        print('usage: player.py %s < CAPTURE > OUTPUT' % '|'.join(MODES), file=sys.stderr)
        return WRONG_ARGUMENTS
    try:
        sys.stdout.buffer.write(output_of(words[0], Stream(sys.stdin.buffer, 'standard input')))
        sys.stdout.flush()
        return DONE
    except ToolError as error:
        print('player.py: %s' % error, file=sys.stderr)
        return REFUSED


if __name__ == '__main__':
    sys.exit(main(sys.argv[1:]))
