"""In how many random captures of a class two players agree, and how far they are apart in the others."""
import random
import struct
from typing import Iterator, List, Optional, Sequence, Tuple

from psxgpu import progress
from psxgpu.capture import Capture
from psxgpu.packets.generated import AREA, CLASSES, background
from psxgpu.players.named import Player, dump_of

PACKETS = 4         # of its class in each capture
DUMP, ROW = 1048576, 2048


def rows(dumps: Sequence[bytes]) -> Iterator[List[Tuple[int, ...]]]:
    """Returns the rows in which dumps are not all alike, as cells."""
    for at in range(0, DUMP, ROW):
        parts = [data[at:at + ROW] for data in dumps]
        if parts.count(parts[0]) < len(parts):
            yield [struct.unpack('<1024H', part) for part in parts]


class Score:
    """Of a class: captures that agree, that a player wrote no dump of, and the cells of those that differ."""

    def __init__(self, name: str, captures: int) -> None:
        self.name, self.captures = name, captures
        self.equal = self.lost = self.differing = self.changed = 0

    def add(self, dumps: Sequence[bytes], before: bytes) -> None:
        """Adds two dumps that differ. `before`: video memory before the packets."""
        for ours, theirs, at_first in rows([*dumps, before]):
            self.differing += sum(a != b for a, b in zip(ours, theirs))
            self.changed += sum(a != c or b != c for a, b, c in zip(ours, theirs, at_first))

    def line(self) -> str:
        """Returns the row of the table."""
        share = '%.2f %%' % (100 * self.differing / self.changed) if self.changed else ''
        lost = ' (%d without a dump)' % self.lost if self.lost else ''
        return '| %s | %d | %d | %s%s |' % (self.name, self.captures, self.equal, share, lost)


def dump(player: Player, data: bytes) -> Optional[bytes]:
    """Returns the dump of a player, or None if it writes none of 512 rows."""
    found = dump_of(player.run('vram', data))
    return found if found and len(found) == DUMP else None


def compare_class(score: Score, players: Sequence[Player]) -> None:
    """Plays the captures of a class."""
    for seed in progress.counted(range(score.captures), score.name, is_quiet=True):
        r = random.Random('%s %d' % (score.name, seed))
        start = background(r) + AREA
        capture = Capture().gp0(start, [CLASSES[score.name](r) for _ in range(PACKETS)])
        dumps = [it for it in (dump(player, capture.bytes()) for player in players) if it is not None]
        if len(dumps) < len(players):
            score.lost += 1
        elif dumps[0] == dumps[1]:
            score.equal += 1
        else:
            score.add(dumps, dump(players[0], Capture().gp0(start).bytes()) or bytes(DUMP))
