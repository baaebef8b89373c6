#!/usr/bin/env python3
"""A player with a fault that an emulator has: MAME knows no dither.

    python3 examples/no_dither.py vram < mine.capture > dump
    python3 examples/no_dither.py play < mine.capture

It gives psxgpu_tool the same capture with bit 9 of each E1h cleared.
"""
import os
import subprocess
import sys

# A checkout need not be installed.
sys.path.append(os.path.dirname(os.path.dirname(os.path.abspath(__file__))))

from psxgpu.capture import Capture  # noqa: E402
from psxgpu.packets.grammar import ENVIRONMENT  # noqa: E402
from psxgpu.players import player  # noqa: E402
from psxgpu.players.steps import Cutter  # noqa: E402
from psxgpu.stream import GP0, Stream  # noqa: E402

DITHER = 1 << 9


def without_dither(stream):
    """Returns the bytes of a capture without dither."""
    out = Capture(stream.version)
    for step in Cutter(stream.version == 3).steps(stream):
        if step.name == ENVIRONMENT and step.words[0] >> 24 == 0xE1:
            out.gp0(step.words[0] & ~DITHER)
        elif step.kind == GP0:
            out.gp0(list(step.words))
        else:
            out.record(step.kind, step.count, step.words)
    return out.bytes()


if __name__ == '__main__':
    data = without_dither(Stream(sys.stdin.buffer, 'standard input'))
    sys.exit(subprocess.run([player.find(), *(sys.argv[1:] or ['vram'])], input=data).returncode)
