#!/usr/bin/env python3
"""Makes what `psxgpu selftest` plays, and what must come of it, in psxgpu/selftest/.

    python3 -m packages.selftest_captures              NAME.capture
    python3 -m packages.selftest_captures PLAYER       and NAME.sums, NAME.play: what the program PLAYER writes of each

Most captures are those of examples/ (examples/make.py, and `ports`, which was recorded). `classes` has random packets
of every class that `psxgpu agree` knows, from a fixed seed, with a picture after each class. The captures are not
packed, so that the program alone can play them. All files together have at most 200 KB.
"""
import gzip
import os
import random
import subprocess
import sys
from typing import Dict

ROOT = os.path.dirname(os.path.dirname(os.path.abspath(__file__)))

from psxgpu.capture import Capture
from psxgpu.packets.generated import AREA, CLASSES, background
from psxgpu.registers import (display_start, drawing_offset, mask_setting, reset, screen,
                              texture_window)
from psxgpu.words import store

FOLDER = os.path.join(ROOT, 'psxgpu', 'selftest')
EXAMPLES = ('flips', 'read-back', 'smear', 'tall', 'textured-frame', 'turns', 'two-fills')
PACKED = ('ports',)
COMMANDS = ('sums', 'play')
PACKETS = 30        # of each class
SEED = 'psxgpu selftest'


def classes() -> bytes:
    """Returns the capture of random packets, class by class. After each class the screen is shown and a part of it is
    read back."""
    r = random.Random(SEED)
    capture = Capture().gp1(reset(), screen(0, 0, 320, 240)).gp0(background(r))
    plain = AREA + drawing_offset(0, 0) + mask_setting() + texture_window(0, 0, 0, 0)
    for make in CLASSES.values():
        capture.gp0(plain, [make(r) for _ in range(PACKETS)])
        capture.gp1(display_start(0, 0)).gp0(store(r.randrange(256), r.randrange(256), 4, 2)).read(4).stat()
    return capture.bytes()


def captures() -> Dict[str, bytes]:
    """Returns the captures by name."""
    found = {'classes': classes()}
    for name in EXAMPLES:
        with open(os.path.join(ROOT, 'examples', name + '.capture'), 'rb') as file:
            found[name] = file.read()
    for name in PACKED:
        with gzip.open(os.path.join(ROOT, 'examples', name + '.capture.gz')) as file:
            found[name] = file.read()
    return found


def write(name: str, data: bytes) -> None:
    """Writes a file of the folder."""
    with open(os.path.join(FOLDER, name), 'wb') as file:
        file.write(data)


def main(*players: str) -> None:
    """Makes the captures, and with a player what it writes of them."""
    os.makedirs(FOLDER, exist_ok=True)
    for name, data in captures().items():
        write(name + '.capture', data)
        for player, command in ((player, command) for player in players for command in COMMANDS):
            done = subprocess.run([player, command], input=data, stdout=subprocess.PIPE, check=True)
            write('%s.%s' % (name, command), done.stdout)


if __name__ == '__main__':
    if len(sys.argv) > 2 or sys.argv[1:] in (['-h'], ['--help']):
        sys.exit(__doc__)
    main(*sys.argv[1:])
