"""Compares the packets of two captures as text, as `diff -u` does.

    psxgpu diff before.capture after.capture
    psxgpu diff before.capture after.psxgpu.zst --name polygon --name rectangle

The lines are those of `psxgpu packets`: each packet with its area and its fields, control words, reads, and DMA starts.
The numbers of events are not compared. They are in the first line of each part: the event at which it begins to differ
in both captures. To see what the packets draw, use `psxgpu compare`.

Status: 0 equal, 1 different, 2 an error, also if the player refuses one of the captures.
"""
import argparse
from typing import Iterator, List, Sequence

from psxgpu import progress
from psxgpu.command import DIFFERENT, SAME, ToolError, reading, title
from psxgpu.files import plain
from psxgpu.output import Source
from psxgpu.packets.listing import NAMES, Entry, Listing
from psxgpu.packets.unified import Side, Text, unified
from psxgpu.players import player
from psxgpu.stream import Stream


def arguments(parser: argparse.ArgumentParser) -> None:
    """Adds the arguments of this tool."""
    parser.add_argument('ours', type=Source, metavar='A', help='a capture or a dump of a GPU; - is standard input')
    parser.add_argument('theirs', type=Source, metavar='B', help='another one')
    parser.add_argument('--name', action='append', choices=NAMES, metavar='NAME',
                        help='only these packets and events, some of: ' + ', '.join(NAMES))
    player.argument(parser)


def text_of(entry: Entry) -> Text:
    """Returns an entry as lines, without the number of its event."""
    return Text(entry.event, (entry.line.partition(' ')[2], *('    ' + field for field in entry.fields())))


def texts(path: str, name: str, program: str, names: Sequence[str]) -> Iterator[Text]:
    """Yields the entries of a capture that have one of these names; all without names. Raises ToolError if the player
    refuses the capture."""
    with reading(path) as file:
        Stream(file, name)              # a file that is not a capture is refused at once
    listing = Listing(path, name, program)
    for entry in listing:
        if not names or entry.name in names:
            yield text_of(entry)
    if listing.refusal:
        raise ToolError('%s: %s' % (name, listing.refusal.splitlines()[0]))


def run(words: argparse.Namespace) -> int:
    """Prints the diff. Returns the status."""
    if words.ours == words.theirs == '-':
        raise ToolError('standard input is one capture: name a file for the other')
    program, sides = player.find(words.player), []      # type: str, List[Side]
    with progress.shown('diff'):
        for given in (words.ours, words.theirs):
            with plain(given) as path:
                sides.append(Side(title(given), list(texts(path, title(given), program, words.name or ()))))
        status = SAME
        for line in unified(*sides):
            print(line)
            status = DIFFERENT
    return status
