"""What is looked for in a capture: dumps that differ, words that differ, a player that breaks down; or one of these in
a capture, and not in the same one without a feature."""
from __future__ import annotations

from typing import NamedTuple, Optional, Sequence, Tuple

from psxgpu.command import ToolError
from psxgpu.difference import compared
from psxgpu.errors import counted
from psxgpu.players.named import Player, dump_of, no_dump
from psxgpu.players.trial_run import words_of
from psxgpu.reduce.features import stripped


class FirstWord(NamedTuple):
    """The first word that differs: its number from 1 among all that are read, ours and theirs."""
    number: int
    ours: int
    theirs: int


class Fault:
    """Base of all faults: whether a capture shows it."""
    mode = 'vram'

    def shows(self, ours: Player, theirs: Player, data: bytes, seconds: Optional[float], strict: bool = False) -> bool:
        """Returns whether the capture `data` shows the fault. A player gets `seconds` for its run. Raises ToolError if
        a player gives no answer and `strict` is true; else the capture then does not show it."""
        raise NotImplementedError


class DumpsDiffer(Fault):
    """The dumps differ by more than a tolerance."""

    def __init__(self, tolerance: int = 0) -> None:
        self.tolerance = tolerance

    def shows(self, ours: Player, theirs: Player, data: bytes, seconds: Optional[float], strict: bool = False) -> bool:
        dumps = []
        for player in (ours, theirs):
            done = player.run('vram', data, seconds)
            dump = dump_of(done)
            if dump is None and strict:
                raise no_dump(player, done)
            if dump is None:
                return False
            dumps.append(dump)
        if len(dumps[0]) != len(dumps[1]):
            raise ToolError('dumps of %d and %d bytes' % (len(dumps[0]), len(dumps[1])))
        return dumps[0] != dumps[1] and (not self.tolerance or compared(dumps[0], dumps[1], self.tolerance).count > 0)


class WordsDiffer(Fault):
    """A word that is read, or a status, differs. `bits`: the only bits in which it may."""
    mode = 'play'

    def __init__(self) -> None:
        self.bits = 0xFFFFFFFF

    def first(self, ours: Player, theirs: Player, data: bytes, seconds: Optional[float],
              strict: bool = False) -> Optional[FirstWord]:
        """Returns the first word that differs, or None."""
        try:
            one, other = (words_of(player, data, seconds) for player in (ours, theirs))
            if len(one) != len(other):
                raise ToolError('our player writes %s, the other player %d' % (counted(len(one), 'word'), len(other)))
        except ToolError:
            if strict:
                raise
            return None
        return next((FirstWord(k, a, b) for k, (a, b) in enumerate(zip(one, other), 1) if self.differs(a, b)), None)

    def differs(self, ours: int, theirs: int) -> bool:
        """Returns whether two words differ."""
        return ours != theirs

    def shows(self, ours: Player, theirs: Player, data: bytes, seconds: Optional[float], strict: bool = False) -> bool:
        found = self.first(ours, theirs, data, seconds, strict)
        return found is not None and not (found.ours ^ found.theirs) & ~self.bits


class Pair(Fault):
    """A capture shows a fault, and no longer does without any one of some features. So a reduction cannot slip into
    another fault."""

    def __init__(self, fault: Fault, features: Sequence[str]) -> None:
        self.fault, self.features, self.mode = fault, features, fault.mode

    def shows(self, ours: Player, theirs: Player, data: bytes, seconds: Optional[float], strict: bool = False) -> bool:
        def shows(one: bytes) -> bool:
            return self.fault.shows(ours, theirs, one, seconds, strict)
        return shows(data) and not any(shows(stripped(feature, data)) for feature in self.features)


class BreaksDown(Fault):
    """Their player gives no dump. `status`: how it ended at first, once that is known; other ends do not count."""

    def __init__(self) -> None:
        self.is_known, self.status = False, None    # type: bool, Optional[int]

    def shows(self, ours: Player, theirs: Player, data: bytes, seconds: Optional[float], strict: bool = False) -> bool:
        done = theirs.run('vram', data, seconds)
        return dump_of(done) is None and (not self.is_known or done.status == self.status)

    def keep(self, theirs: Player, data: bytes, seconds: Optional[float]) -> Tuple[Optional[int], str]:
        """Keeps how their player ends on `data`. Returns the status and what it said."""
        done = theirs.run('vram', data, seconds)
        self.is_known, self.status = True, done.status
        return done.status, done.err.decode(errors='replace').strip()
