"""What a player is asked, and what it answers."""
from __future__ import annotations

import re
from typing import Dict, List, Tuple

from psxgpu.capture import Capture, display_mode, horizontal_range, vertical_range
from psxgpu.conformance.draft import HEIGHT, Picture
from psxgpu.players.named import Done, Player, ending
from psxgpu.vram import WIDTH

WORD = re.compile('(0[xX])?[0-9a-fA-F]{1,8}')
SECONDS = 20.0          # for one run of a player
PROBES: Dict[str, Tuple[str, Capture]] = {
    'vram': ('vram', Capture()),
    'play': ('play', Capture().stat()),
    'shot': ('shot', Capture().gp1(horizontal_range(0x200, 0x228), vertical_range(0x10, 0x11), display_mode(0))),
    'dma': ('vram', Capture().dma(2, 0x1000, 0x00010001, 0)),
    'turns': ('vram', Capture(2).turn()),
    'tall': ('vram', Capture(3)),
}


class NoAnswer(Exception):
    """A player gave no answer: it crashed, did not end in time, or wrote something else. The text is the reason."""


def answer(player: Player, mode: str, data: bytes, seconds: float) -> bytes:
    """Returns what a player writes for a capture. Raises NoAnswer if it does not end with status 0."""
    done: Done = player.run(mode, data, seconds)
    if done.status != 0:
        raise NoAnswer('%s: %s' % (mode, ending(done)))
    return done.out


def read_words(out: bytes) -> List[int]:
    """Returns the words of `play`. A line `status ..` at the end does not count. Raises NoAnswer for another line."""
    lines = [line for line in out.decode(errors='replace').splitlines() if not line.startswith('status')]
    try:
        return [int(line, 16) for line in lines]
    except ValueError:
        bad = next(line for line in lines if not WORD.fullmatch(line))
        raise NoAnswer('play: %r is not a word' % bad[:20]) from None


def picture_of(out: bytes) -> Picture:
    """Returns a picture in PPM. Raises NoAnswer for something else."""
    parts = out.split(maxsplit=3)
    if out.startswith((b'P1', b'P2', b'P3', b'P4', b'P5')):
        raise NoAnswer('shot: a picture of the kind %s, and not P6' % out[:2].decode())
    if len(parts) < 3 or parts[0] != b'P6' or not parts[1].isdigit() or not parts[2].isdigit():
        raise NoAnswer('shot: not a picture')
    width, height = int(parts[1]), int(parts[2])
    pixels = out[len(b'P6\n%d %d\n255\n' % (width, height)):]
    if len(pixels) != 3 * width * height:
        raise NoAnswer('shot: %d bytes of pixels for %d by %d' % (len(pixels), width, height))
    return Picture(width, height, pixels)


def lack(mode: str, done: Done, is_tall: bool) -> str:
    """Returns why a run is no answer to one of the probes, or an empty text."""
    if done.status != 0:
        return ending(done)
    try:
        if mode == 'play':
            count = len(read_words(done.out))
            return '' if count == 1 else '%d words for one read of the status' % count
        if mode == 'shot':
            return '' if picture_of(done.out).width > 0 else 'a picture without width'
    except NoAnswer as error:
        return str(error)
    size = 2 * WIDTH * HEIGHT * (2 if is_tall else 1)
    return '' if len(done.out) == size else '%d bytes, expected %d' % (len(done.out), size)


def lacks(player: Player, seconds: float) -> Dict[str, str]:
    """Returns for each of the probes why the player does not take it, or an empty text. Each is asked once, by a
    capture that does nothing."""
    return {name: lack(mode, player.run(mode, capture.bytes(), seconds), capture.version == 3)
            for name, (mode, capture) in PROBES.items()}
