"""What is shown of the frames of a recording: a line of each, and the counts of one. A long recording is counted in
parts, side by side."""
from __future__ import annotations

from typing import List, Optional

from psxgpu.heat.counting import Counter, Frame
from psxgpu.heat.picture import Counts
from psxgpu.players.listed import Walk
from psxgpu.players.parts import LEAST, over_parts


def frame_line(number: int, frame: Frame, counts: Optional[Counts]) -> str:
    """Returns the line of a frame."""
    if counts is None:
        return '%d %d 0 0 0.00 0' % (number, frame.packets)
    total, covered = counts.total(), counts.covered()
    return '%d %d %d %d %.2f %d' % (number, frame.packets, total, covered, total / max(covered, 1), counts.most())


class Shown:
    """The lines of all frames, and the number and the counts of the wanted frame, or of that in which most is drawn.
    `before`: the number of frames before them."""

    def __init__(self, wanted: Optional[int], before: int = 0) -> None:
        self.wanted, self.before = wanted, before
        self.lines: List[str] = []
        self.number, self.most = 0, -1
        self.counts: Optional[Counts] = None

    def take(self, frame: Frame, rows: int) -> None:
        """Takes the next frame."""
        number = self.before + len(self.lines) + 1
        counts = Counts(frame, rows) if frame.sums or frame.areas else None
        self.lines.append(frame_line(number, frame, counts))
        moved = sum((x2 - x1 + 1) * (y2 - y1 + 1) for x1, y1, x2, y2 in frame.areas)
        drawn = counts.total() - moved if counts else -1
        if number == self.wanted or not self.wanted and frame.sums and drawn > self.most:
            self.number, self.counts, self.most = number, counts, drawn

    def join(self, later: Shown) -> None:
        """Takes what is shown of later frames."""
        self.lines += later.lines
        if later.number and (self.wanted or later.most > self.most):
            self.number, self.counts, self.most = later.number, later.counts, later.most


def of_walk(walk: Walk, jobs: int, ends: int, wanted: Optional[int]) -> Shown:
    """Returns what is shown of the frames of a walk."""
    shown = Shown(wanted, walk.frames)
    for frame in Counter(walk, ends, jobs).counted():
        shown.take(frame, 1024 if walk.is_tall else 512)
    return shown


def shown_of(walk: Walk, ends: int, wanted: Optional[int], jobs: int, least: int = LEAST) -> Shown:
    """Returns what is shown of the frames of a capture. `ends`: the opcode of the control word that ends a frame;
    `wanted`: the number of a frame; `least`: the bytes of a part."""
    first, *others = over_parts(of_walk, walk, (ends,), jobs, ends, wanted, least=least)
    for later in others:
        first.join(later)
    return first
