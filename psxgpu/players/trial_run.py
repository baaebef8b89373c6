"""Asks a player before it is compared: it has to write a whole dump, of zeros at first, and twice the same bytes."""
from __future__ import annotations

from concurrent.futures import ThreadPoolExecutor
from typing import List, Optional, Tuple

from psxgpu.capture import Capture
from psxgpu.command import ToolError, reading
from psxgpu.errors import counted
from psxgpu.players.named import Player, dump_of, ending, expect_dump
from psxgpu.registers import drawing_area
from psxgpu.stream import Stream
from psxgpu.vram import WIDTH
from psxgpu.words import fill, load, rectangle, store

OURS, THEIRS, ALONE = 'our player', 'the other player', 'the player'
DIGITS = 8      # of a word in the output of `play`; other lines are not words


def trial_captures(version: int) -> Tuple[bytes, bytes]:
    """Returns a capture without an event, and one with a fill, a load and a rectangle."""
    drawn = Capture(version).gp0(fill(0xFFFFFF, 0, 0, 32, 32))
    drawn.gp0(load(64, 0, 2, 1, [0x1F, 0x3E0])).gp0(drawing_area(0, 0, 1023, 511)).gp0(rectangle(0xFF, 96, 8, 4, 4))
    return Capture(version).bytes(), drawn.bytes()


def version_for(path: str) -> int:
    """Returns the version in which players get the capture `path`: 3 if it is tall, else 1."""
    with reading(path) as file:
        return 3 if Stream(file, path).version == 3 else 1


def try_players(ours: Player, theirs: Player, path: str, seconds: Optional[float] = None) -> None:
    """Tries both players on captures of the version in which they get the capture `path`."""
    try_commands(ours, theirs, version_for(path), seconds)


def try_commands(ours: Player, theirs: Player, version: int = 1, seconds: Optional[float] = None) -> None:
    """Tries both players, as `try_player` does."""
    with ThreadPoolExecutor(1) as pool:
        other = pool.submit(try_player, theirs, THEIRS, version, seconds)
        try_player(ours, OURS, version, seconds)
        other.result()


def refuse(player: Player, role: str, reason: str) -> ToolError:
    """Returns the error of a player that cannot be compared."""
    return ToolError('%s: %s %s' % (player.text, role, reason))


def try_player(player: Player, role: str = ALONE, version: int = 1, seconds: Optional[float] = None) -> None:
    """Raises ToolError if a player writes no whole dump, if video memory does not start as zeros, if it writes other
    bytes for the same capture, or the same dump of a capture that draws as of one that does not."""
    empty, drawn = trial_captures(version)
    before, size = expect_dump(player, empty, seconds), 2 * WIDTH * (1024 if version == 3 else 512)
    if len(before) != size:
        raise refuse(player, role, 'writes a dump of %d bytes, not of %d' % (len(before), size))
    if any(before):
        at = next(at for at in range(0, size, 2) if before[at] or before[at + 1])
        cell = before[at] | before[at + 1] << 8
        raise refuse(player, role, 'starts with other cells than 0: (%d, %d) is %04x'
                     % (at // 2 % WIDTH, at // 2 // WIDTH, cell))
    after = dump_of(player.run('vram', drawn, seconds))
    # One that does not play the second capture may still play the user's.
    if before == after:
        raise refuse(player, role, 'gives the same dump whatever it reads')
    if dump_of(player.run('vram', empty if after is None else drawn, seconds)) != (after or before):
        raise refuse(player, role, 'writes other bytes each time, for the same capture')


def words_of(player: Player, data: bytes, seconds: Optional[float] = None) -> List[int]:
    """Returns the words that `play` writes. Raises ToolError if it fails, or writes a line that is not a word."""
    done = player.run('play', data, seconds)
    if done.status != 0:
        raise ToolError('%s: no words (%s)' % (player.text, ending(done)))
    try:
        return [int(line, 16) for line in done.out.split(b'\n') if len(line.strip()) == DIGITS]
    except ValueError as bad:
        raise ToolError('%s, mode play: a line that is not a word of eight digits' % player.text) from bad


def try_words(player: Player, role: str, version: int = 1, seconds: Optional[float] = None) -> None:
    """Raises ToolError if a player does not write the words that it reads, if video memory does not start as zeros, or
    if it writes other bytes for the same capture."""
    capture = Capture(version).gp0(store(0, 0, 2, 1)).read()
    data = capture.gp0(load(64, 0, 2, 1, [1, 2]), store(64, 0, 2, 1)).read().bytes()
    words = words_of(player, data, seconds)
    if len(words) != 2:
        raise refuse(player, role, 'writes %s of eight digits with `play` for a capture with two reads'
                     % counted(len(words), 'word'))
    if words[0]:
        raise refuse(player, role, 'starts with other cells than 0: (0, 0) is %04x' % (words[0] & 0xFFFF))
    if words_of(player, data, seconds) != words:
        raise refuse(player, role, 'writes other bytes each time, for the same capture')
