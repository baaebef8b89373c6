"""Finds where in a capture a player begins to differ from another, and draws the difference."""
import tempfile
from typing import List, Optional, Tuple

from psxgpu.corpus.findings import Finding, Shown
from psxgpu.corpus.play import Player
from psxgpu.corpus.scan import copy_first, frames
from psxgpu.difference import Difference, compared
from psxgpu.image import Image, png, read_picture

NAMES = ('the player', 'the reference')
MARGIN = 8          # cells around what differs


def pictures(difference: Difference) -> List[Shown]:
    """Returns what differs as pictures: the part of video memory of both players, and of the difference."""
    box, images = difference.box(MARGIN), [difference.ours.image(), difference.theirs.image(), difference.image()]
    titles = ['video memory of %s from (%d, %d)' % (name, box[0], box[1]) for name in NAMES] + ['what differs, in red']
    return [Shown(title, png(part(image, box))) for title, image in zip(titles, images)]


def part(image: Image, box: Tuple[int, int, int, int]) -> Image:
    """Returns the part of a picture inside a box: first column and row, last column and row."""
    left, top, right, bottom = box
    rows = (image.row(y)[3 * left:3 * (right + 1)] for y in range(top, bottom + 1))
    return Image(right + 1 - left, bottom + 1 - top, b''.join(rows))


class Places:
    """Finds the first packet after which a player differs from another, and draws the difference."""

    def __init__(self, player: Player, reference: Optional[Player] = None) -> None:
        self.player, self.reference = player, reference

    @staticmethod
    def given(player: Player, word: str, path: str, last: int) -> bytes:
        """Returns what a player writes for the first events of a capture; nothing if it does not play them."""
        with tempfile.TemporaryFile() as part:
            copy_first(path, last, part)
            part.seek(0)
            with player.run(word, part) as run:
                return run.out.read() if run.end == 'played' else b''

    def dumps(self, path: str, n: int, reference: Player) -> Tuple[bytes, bytes]:
        """Returns the dumps of the player and of `reference` after event n."""
        return self.given(self.player, 'vram', path, n), self.given(reference, 'vram', path, n)

    def look(self, finding: Finding, path: str) -> None:
        """Adds what can be found to a finding that says `different`."""
        last = frames(path)[1]
        high = last if finding.high is None else min(finding.high, last)
        try:
            if self.reference:
                self.first_packet(finding, path, high, self.reference)
                if finding.other_words:
                    self.first_word(finding, path, last, self.reference)
            else:
                self.show(finding, path, high)
        except (ValueError, OSError) as error:
            finding.lines.append('no picture: %s' % error)

    def first_packet(self, finding: Finding, path: str, high: int, reference: Player) -> None:
        """Adds the first packet after which the dumps differ, up to event `high`."""
        ours, theirs = self.dumps(path, high, reference)
        if not theirs or len(ours) != len(theirs):
            finding.lines.append('%d and %d bytes of video memory' % (len(ours), len(theirs)))
            return
        if ours == theirs:
            finding.lines.append('after event %d video memory is the same' % high)
            return
        difference = compared(ours, theirs)
        finding.pictures = pictures(difference)
        low, found = finding.low, (ours, theirs)
        while high - low > 1:
            middle = (low + high) // 2
            dumps = self.dumps(path, middle, reference)
            if dumps[0] == dumps[1]:
                low = middle
            else:
                high, found = middle, dumps
        finding.event, finding.dump, finding.cell = high, found[0], compared(*found).places[0]
        finding.lines.append('first packet: ' + self.packet(path, high, reference))
        finding.lines += difference.lines(NAMES)

    def first_word(self, finding: Finding, path: str, last: int, reference: Player) -> None:
        """Adds the first line of `play` that is another one."""
        sides = [self.given(player, 'play', path, last).decode('ascii', 'replace').splitlines()
                 for player in (self.player, reference)]
        at = next((k for k, (a, b) in enumerate(zip(*sides)) if a != b), min(map(len, sides)))
        one, other = (lines[at] if at < len(lines) else 'none' for lines in sides)
        finding.lines.append('first differing word: line %d: %s %s, %s %s' % (at + 1, NAMES[0], one, NAMES[1], other))

    def packet(self, path: str, event: int, reference: Player) -> str:
        """Returns the line of `list` for an event. A data word of a load has none: then it is that of the load."""
        lines = self.given(reference, 'list', path, event).decode('ascii', 'replace').splitlines()
        last = lines[-1] if lines else ''
        if last.split(' ')[0] == str(event):
            return next(line for line in lines if line.split(' ')[0] == str(event))
        return 'event %d' % event + (', data of %s' % last if last.split(' ')[1:2] == ['load'] else '')

    def show(self, finding: Finding, path: str, high: int) -> None:
        """Adds the picture after event `high`."""
        data = self.given(self.player, 'shot', path, high)
        if data:
            finding.pictures = [Shown('the picture of the player after event %d' % high, png(read_picture(data)))]
