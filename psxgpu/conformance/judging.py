"""Compares what a player answers with what the tests expect."""
from __future__ import annotations

from dataclasses import dataclass, field
from typing import FrozenSet, List, Optional

from psxgpu.conformance.answers import SECONDS, NoAnswer, answer, lacks, picture_of, read_words
from psxgpu.conformance.suite import PSX_SPX, WIDTH, Picture, Place, Test
from psxgpu.players.named import Player

PASSED, FAILED, DIFFERS, NOT_TAKEN, TROUBLE = KINDS = ('passed', 'failed', 'differs', 'not taken', 'error')

MOST_BITS = 4               # of a word, that are named


@dataclass
class Verdict:
    """What is found of a test: one of KINDS, and the reason. `dump`: what was drawn, if cells differ at `places`.
    `shown`: the picture that was shown instead of the expected one."""
    test: Test
    kind: str
    reason: str = ''
    dump: Optional[bytes] = None
    places: List[Place] = field(default_factory=list)
    shown: Optional[Picture] = None


class Judge:
    """A player, the seconds that it has for a run, and what it takes."""

    def __init__(self, player: Player, seconds: float = SECONDS) -> None:
        self.player, self.seconds = player, seconds
        self.lacks = lacks(player, seconds)         # why the player does not take something, or an empty text
        self.able = frozenset(name for name, why in self.lacks.items() if not why)

    def judge(self, test: Test) -> Verdict:
        """Runs a test."""
        missing = needs_of(test) - self.able
        if missing:
            return Verdict(test, NOT_TAKEN, '; '.join('no %s: %s' % (it, self.lacks[it]) for it in sorted(missing)))
        try:
            verdict = self.cells(test)
            reasons = [verdict.reason, self.words(test), self.picture(verdict)]
        except NoAnswer as error:
            return Verdict(test, TROUBLE, str(error))
        verdict.reason = '; '.join(filter(None, reasons))
        if verdict.reason:
            verdict.kind = FAILED if test.decides == PSX_SPX else DIFFERS
        return verdict

    def cells(self, test: Test) -> Verdict:
        """Compares video memory."""
        dump = answer(self.player, 'vram', test.data, self.seconds)
        if len(dump) != len(test.dump):
            raise NoAnswer('vram: %d bytes, expected %d' % (len(dump), len(test.dump)))
        places = [place for place in differing(dump, test.dump) if place not in test.draft.ignored]
        if not places:
            return Verdict(test, PASSED)
        x, y = places[0]
        mine, wanted = (cell_text(cell_of(one, x, y)) for one in (dump, test.dump))
        reason = '%d cell%s, the first at (%d, %d): yours %s, expected %s' % (
            len(places), 's' * (len(places) > 1), x, y, mine, wanted)
        return Verdict(test, PASSED, reason, dump, places)

    def words(self, test: Test) -> str:
        """Compares the words that are read. Returns how they differ, or an empty text."""
        if not test.draft.words:
            return ''
        words = read_words(answer(self.player, 'play', test.data, self.seconds))
        if len(words) != len(test.draft.words):
            raise NoAnswer('play: %d words, expected %d' % (len(words), len(test.draft.words)))
        for at, (word, expected) in enumerate(zip(words, test.draft.words), 1):
            if not expected.agrees(word):
                return 'word %d of %d: yours %08x, expected %s%s' % (
                    at, len(words), word, expected, bits_text((word ^ expected.word) & expected.mask))
        return ''

    def picture(self, verdict: Verdict) -> str:
        """Compares the picture. Returns how it differs, or an empty text."""
        test = verdict.test
        wanted = test.draft.picture
        if test.draft.wants_no_picture:
            done = self.player.run('shot', test.data, self.seconds)
            return 'a picture, and none is expected' if done.status == 0 else ''
        if wanted is None:
            return ''
        shown = picture_of(answer(self.player, 'shot', test.data, self.seconds))
        if shown == wanted:
            return ''
        verdict.shown = shown
        if (shown.width, shown.height) != (wanted.width, wanted.height):
            return 'the picture: yours %d by %d, expected %d by %d' % (
                shown.width, shown.height, wanted.width, wanted.height)
        at = next(at for at, pair in enumerate(zip(shown.pixels, wanted.pixels)) if pair[0] != pair[1]) // 3
        mine, expected = (' '.join(map(str, one.pixels[3 * at:3 * at + 3])) for one in (shown, wanted))
        x, y = at % shown.width, at // shown.width
        return 'pixel (%d, %d) of the picture: yours %s, expected %s' % (x, y, mine, expected)


def needs_of(test: Test) -> FrozenSet[str]:
    """Returns what a player has to take for a test."""
    draft, needs = test.draft, set(test.needs)
    if draft.words:
        needs.add('play')
    if draft.picture or draft.wants_no_picture:
        needs.add('shot')
    return frozenset(needs)


def cell_text(cell: int) -> str:
    """Returns a cell and, in brackets, its channels red, green, blue and bit 15 if it is 1."""
    return '%04x (%d %d %d%s)' % (cell, cell & 31, cell >> 5 & 31, cell >> 10 & 31, ', bit 15' if cell >> 15 else '')


def bits_text(bits: int) -> str:
    """Returns which bits differ, if they are few."""
    found = [at for at in range(32) if bits >> at & 1]
    if len(found) > MOST_BITS:
        return ''
    return ' (bit%s %s)' % ('s' * (len(found) > 1), ', '.join(map(str, found)))


def cell_of(dump: bytes, x: int, y: int) -> int:
    """Returns a cell of a dump."""
    at = 2 * (WIDTH * y + x)
    return dump[at] | dump[at + 1] << 8


def differing(one: bytes, other: bytes) -> List[Place]:
    """Returns the places of the cells in which two dumps differ, row after row."""
    out: List[Place] = []
    row = 2 * WIDTH
    for y in range(len(one) // row if one != other else 0):
        mine, theirs = one[y * row:y * row + row], other[y * row:y * row + row]
        if mine != theirs:
            out += [(x, y) for x in range(WIDTH) if mine[2 * x:2 * x + 2] != theirs[2 * x:2 * x + 2]]
    return out
