"""The frames of a recording, numbered from 1. docs/CAPTURE.md#frames has the rule.

A frame ends with a flip, a write of the display start, or with a mark of a recorder. What follows the last one is a
frame too if it has a packet.
"""
from typing import List, Optional

from psxgpu.command import BLOCK
from psxgpu.corpus.scan import FLIP, MARK, past_head, records, take_words
from psxgpu.errors import ToolError
from psxgpu.players import player
from psxgpu.stream import BEGIN, DMA, GP0, GP1, TURN

FEEDS = (GP0, DMA, BEGIN, TURN)     # records whose words may complete a packet


def last_listed(program: str, path: str) -> int:
    """Returns the event of the last packet, or 0 if there is none. What follows a refused event does not count."""
    line = rest = b''
    with player.playing(program, ['list'], path) as listed:
        while True:
            block = listed.out.read(BLOCK)
            if not block:
                break
            *lines, rest = (rest + block).rsplit(b'\n', 2)
            line = lines[-1] if lines else line
    line = rest or line
    try:
        return int(line.split()[0]) if line else 0
    except ValueError as error:
        raise ToolError('the player lists a line that is not one of `list`: %r' % line[:40]) from error


class Ends:
    """The events that end the frames of a recording, in order: `flips` or marks, then with `has_rest` the `last` event.
    Of a damaged recording, what is before the damage counts, and `damage` says what it is. `last_packet`: the event of
    the last packet, where that is known."""

    def __init__(self, program: str, path: str, opcode: int = FLIP, last_packet: Optional[int] = None) -> None:
        self.flips: List[int] = []
        self.damage = ''
        self.last = fed = 0
        with open(path, 'rb') as file:
            try:
                self.last = past_head(file)
                for kind, size, _ in records(file):
                    self.last += size
                    if kind == GP1 and take_words(file, 1)[0] >> 24 & 0x3F == opcode:
                        self.flips.append(self.last)
                    fed = self.last if kind in FEEDS else fed
            except ValueError as error:
                self.damage = str(error)
        before = self.flips[-1] if self.flips else 0
        self.has_rest = fed > before and (last_listed(program, path) if last_packet is None else last_packet) > before
        self.events = self.flips + [self.last] * self.has_rest

    def __len__(self) -> int:
        return len(self.events)

    def event_of(self, number: int) -> int:
        """Returns the event of a line of `sums`: it numbers the picture at the end by the event after the last."""
        return min(number, self.last)


def marks_or_flips(program: str, path: str, by_flips: bool = False) -> Ends:
    """Returns the frames by marks, or by flips if there is no mark, or with `by_flips`."""
    by_marks = None if by_flips else Ends(program, path, MARK)
    return by_marks if by_marks and by_marks.flips else Ends(program, path)
