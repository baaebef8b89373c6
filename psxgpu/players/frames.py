"""Two recordings, frame by frame: the first frame that differs, and its pictures."""
from __future__ import annotations

import itertools
import tempfile
from dataclasses import dataclass, field
from typing import Iterator, List, Optional, Tuple

from psxgpu.corpus.scan import FLIP, MARK, copy_first
from psxgpu.errors import ToolError, counted
from psxgpu.jobs import in_order
from psxgpu.players import player
from psxgpu.players.numbering import Ends

MEMORY = 'vram'


@dataclass(frozen=True)
class Frame:
    """A picture that `sums` names: its event, its size and its SHA-256. A frame that shows none has the size 0 by 0."""
    event: int
    width: int = 0
    height: int = 0
    sum: str = ''

    @property
    def picture(self) -> Tuple[int, int, str]:
        """What is compared: the event may be another one."""
        return self.width, self.height, self.sum

    def text(self) -> str:
        """Returns the size and the sum."""
        return '%d by %d %s' % self.picture if self.sum else 'no picture'


class Frames:
    """The frames of one recording, as the player writes them. After the last one, `memory` is the sum of video memory,
    `after` the picture at the end unless it is that of a frame, and `refusal` the line with which the recording is
    refused, if it is."""

    def __init__(self, run: player.Run, ends: Ends) -> None:
        self.run, self.ends = run, ends
        self.memory, self.refusal = '', ''
        self.after: Optional[Frame] = None if ends.has_rest else Frame(ends.last)

    def shown(self) -> Iterator[Frame]:
        """Yields the pictures up to the line of video memory."""
        for line in self.run.out:
            words = line.decode('ascii', 'replace').split()
            try:
                if words[0] == MEMORY:
                    self.memory = words[1]
                    continue
                frame = Frame(self.ends.event_of(int(words[0])), int(words[1]), int(words[2]), words[3])
            except (ValueError, IndexError) as error:
                raise ToolError('the player writes a line that is not one of `sums`: %s'
                                % ' '.join(words)[:60]) from error
            yield frame

    def __iter__(self) -> Iterator[Frame]:
        number, events = 1, self.ends.events
        for frame in self.shown():
            while number <= len(events) and events[number - 1] < frame.event:
                yield Frame(events[number - 1])
                number += 1
            if number > len(events):
                self.after = frame
                continue
            yield frame
            number += 1
        status = self.run.end()
        if status:
            self.refusal = player.failure(status, self.run.said())
            return
        yield from map(Frame, events[number - 1:])


@dataclass
class Finding:
    """What two recordings differ in: nothing, a frame, or what is after all frames, which is video memory or the
    picture at the end. `number` is that of the frame, `pair` what each recording has in its place."""
    lines: List[str] = field(default_factory=list)
    frames: int = 0
    number: int = 0
    pair: Tuple[Optional[Frame], Optional[Frame]] = (None, None)
    is_other_memory: bool = False

    @property
    def is_same(self) -> bool:
        """Whether nothing differs."""
        return not any(self.pair) and not self.is_other_memory

    def contents(self, paths: Tuple[str, str], program: str) -> Tuple[List[bytes], bool]:
        """Returns what differs: the pictures of the frame that are there, or both video memories, and whether they are
        pictures."""
        if self.is_other_memory:
            return [written(path, program, 'vram') for path in paths], False
        return [written(path, program, 'shot', frame.event)
                for path, frame in zip(paths, self.pair) if frame and frame.sum], True


def check_whole(names: Tuple[str, str], sides: Tuple[Frames, Frames], frames: int) -> None:
    """Raises `ToolError` if the player refuses one of the recordings."""
    for name, side in zip(names, sides):
        if side.refusal:
            raise ToolError('%s: %s; equal before that: %s' % (name, side.refusal, counted(frames, 'frame')))


def frame_lines(what: str, pair: Tuple[Optional[Frame], Optional[Frame]]) -> List[str]:
    """Returns the lines about a frame that differs, or that only one recording has."""
    ours, theirs = pair
    if ours and theirs:
        return ['%s, event %d and event %d' % (what, ours.event, theirs.event),
                'ours %s, theirs %s' % (ours.text(), theirs.text())]
    there = ours or theirs
    assert there
    return ['%s, event %d of %s alone' % (what, there.event, 'ours' if ours else 'theirs'), there.text()]


def after_frames(finding: Finding, sides: Tuple[Frames, Frames]) -> None:
    """Adds what differs after all frames, which are equal: video memory, or the picture at the end."""
    memories, (ours, theirs) = (sides[0].memory, sides[1].memory), (sides[0].after, sides[1].after)
    finding.is_other_memory = memories[0] != memories[1]
    finding.lines = ['equal: %s%s' % (counted(finding.frames, 'frame'),
                                      '' if finding.is_other_memory else ', and video memory')]
    if finding.is_other_memory:
        finding.lines.append('video memory after the end differs: ours %s, theirs %s' % memories)
    elif ours and theirs and ours.picture != theirs.picture:
        finding.pair = ours, theirs
        finding.lines += frame_lines('the picture at the end differs', finding.pair)


def first_difference(names: Tuple[str, str], paths: Tuple[str, str], program: str, marks: bool = False,
                     jobs: int = 2) -> Finding:
    """Returns the first difference of two recordings. `paths` are files of the disk; frames end at new display starts,
    or at `marks`. With more than one of `jobs`, the frames of both are counted at the same time."""
    words = ['sums', 'marks'] if marks else ['sums']
    ends = list(in_order(min(jobs, 2), lambda path: Ends(program, path, MARK if marks else FLIP), paths))
    finding = Finding()
    with player.playing(program, words, paths[0]) as one, player.playing(program, words, paths[1]) as other:
        sides = Frames(one, ends[0]), Frames(other, ends[1])
        for pair in itertools.zip_longest(*sides):
            ours, theirs = pair
            if ours is None or theirs is None:
                check_whole(names, sides, finding.frames)
            if ours is None or theirs is None or ours.picture != theirs.picture:
                finding.number, finding.pair = finding.frames + 1, pair
                finding.lines = frame_lines('first differing frame: %d' % finding.number, pair)
                return finding
            finding.frames += 1
    check_whole(names, sides, finding.frames)
    after_frames(finding, sides)
    return finding


def written(path: str, program: str, word: str, event: Optional[int] = None) -> bytes:
    """Returns what the player writes with `word` of a recording, or of its events up to `event`."""
    if event is None:
        return player.answer(program, [word], path)
    with tempfile.NamedTemporaryFile(prefix='psxgpu') as part:
        copy_first(path, event, part)
        part.flush()
        return player.answer(program, [word], part.name)
