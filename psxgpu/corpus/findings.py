"""Compares the sums that a player gives with those that were recorded."""
from dataclasses import dataclass, field
from typing import List, NamedTuple, Optional, Sequence, Tuple

from psxgpu.command import ToolError
from psxgpu.corpus.sums import Frame, Row, Sums
from psxgpu.errors import counted

FAULTS = ('refused', 'fails', 'hangs', 'crashes')


class Shown(NamedTuple):
    """A picture of the report, as PNG."""
    title: str
    data: bytes


@dataclass
class Finding:
    """The result for one capture. `low` and `high`: it is the same after event `low`, and not after `high`. `event`:
    the first after which dumps differ; `dump`, `cell`: the player's dump there, and the first cell that differs.
    `links`, `page`: files of the report beside its page, that it leads to, and the one of the viewer."""
    name: str
    kind: str = 'same'
    lines: List[str] = field(default_factory=list)
    low: int = 0
    high: Optional[int] = None
    other_words: bool = False
    seconds: float = 0.0
    pictures: List[Shown] = field(default_factory=list)
    links: List[str] = field(default_factory=list)
    event: Optional[int] = None
    dump: bytes = b''
    cell: Optional[Tuple[int, int]] = None
    page: str = ''


def as_asked(frame: Frame, gives: Sequence[str]) -> Tuple[int, int, int, str, str]:
    """Returns what is compared of a frame."""
    return frame.event, frame.width, frame.height, frame.picture, frame.words if 'words' in gives else '-'


def compare_frames(finding: Finding, want: Row, got: Row, gives: Sequence[str]) -> None:
    """Finds the first frame that differs."""
    pairs = [[as_asked(frame, gives) for frame in row.frames] for row in (want, got)]
    at = next((k for k, (a, b) in enumerate(zip(*pairs)) if a != b), min(map(len, pairs)))
    if at == max(map(len, pairs)):
        return
    finding.kind = 'different'
    finding.low = want.frames[at - 1].event if at else 0
    there = [row.frames[at] for row in (want, got) if at < len(row.frames)]
    finding.high = min(frame.event for frame in there)
    finding.lines.append('frame %d of %d (event %d), after event %d'
                         % (at + 1, max(map(len, pairs)), finding.high, finding.low))
    if len(there) == 2 and there[0].picture == there[1].picture:
        finding.lines.append('the picture is the same there, %s'
                             % ('its event is not' if there[0].words == there[1].words else 'the words read are not'))


def cause_of(end: str) -> str:
    """Returns an end without its kind, which the report names before."""
    kind, _, rest = end.partition(' ')
    if kind in ('refused', 'fails'):
        return 'status ' + rest.replace(' ', ': ', 1)
    return 'after %s seconds' % rest if kind == 'hangs' else rest


def compare_ends(finding: Finding, want: Row, got: Row) -> None:
    """Adds the ends of two runs, if they differ."""
    if want.end == got.end:
        return
    kind = got.end.split()[0]
    finding.kind = kind if kind in FAULTS else 'different'
    finding.lines.append(cause_of(got.end) if kind in FAULTS else 'played now')
    finding.lines.append('recorded: ' + want.end)


def compare_rows(name: str, want: Optional[Row], got: Optional[Row], gives: Sequence[str]) -> Finding:
    """Returns the finding of one capture. `want` or `got` may be None."""
    finding = Finding(name, seconds=got.seconds if got else 0)
    if want is None or got is None:
        finding.kind = 'unrecorded' if want is None else 'missing'
        finding.lines.append('%s has no such capture' % ('the file of sums' if want is None else 'the folder'))
        return finding
    if (want.size, want.sum) != (got.size, got.sum):
        finding.kind = 'changed'
        finding.lines.append('another file: %d bytes, recorded: %d' % (got.size, want.size))
        return finding
    if {'frames', 'marks'} & set(gives):
        compare_frames(finding, want, got, gives)
    if 'vram' in gives and want.vram and got.vram and want.vram != got.vram:
        finding.kind = 'different'
        finding.lines.append('video memory after the end')
    if 'words' in gives and want.words != got.words and want.words and got.words:
        finding.kind = 'different'
        finding.other_words = True
        finding.lines.append('words read: %s, recorded: %d' % (counted(got.words[0], 'line'), want.words[0])
                             if got.words[0] != want.words[0] else 'words read, of %s' % counted(got.words[0], 'line'))
    compare_ends(finding, want, got)
    return finding


def compare_sums(want: Sums, got: Sums) -> List[Finding]:
    """Returns the findings of all captures that one of both files has, by name. Raises ToolError if nothing can be
    compared."""
    gives = [it for it in want.gives if it in got.gives]
    if not gives:
        raise ToolError('nothing to compare: recorded are %s, and %s are played'
                      % (' and '.join(want.gives), ' and '.join(got.gives)))
    return [compare_rows(name, want.rows.get(name), got.rows.get(name), gives)
            for name in sorted({**want.rows, **got.rows})]
