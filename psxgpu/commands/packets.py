"""Decodes a capture: packets with their fields, control words, reads and DMA starts.

    psxgpu packets examples/turns.capture
    psxgpu packets mine.capture --name polygon --name dma --cell 100 96
    psxgpu packets mine.capture --events 3000 4000 --line

A packet begins with the line that `psxgpu_tool list` writes for it. Its fields follow on separate lines, or with --line
on the same line. psxgpu_tool finds the packets and their areas. If it refuses the capture, its line and the last
packets before the fault end the list.

Status: 0 all was listed, 2 an error, a refusal, or nothing to list.
"""
import argparse
import json
import re
import sys
from typing import Iterator, List

from psxgpu import progress
from psxgpu.command import SAME, TROUBLE, ToolError, decimal, reading, title
from psxgpu.files import plain
from psxgpu.output import Source
from psxgpu.packets.control import class_name
from psxgpu.packets.listing import NAMES, Entry, Listing, Together, holds
from psxgpu.players import player
from psxgpu.stream import Stream

TOGETHER = 256      # entries that are written at once


def arguments(parser: argparse.ArgumentParser) -> None:
    """Adds the arguments of this tool."""
    parser.add_argument('capture', type=Source, metavar='CAPTURE',
                        help='a capture or a dump of a GPU; - is standard input')
    parser.add_argument('--name', action='append', choices=NAMES, metavar='NAME',
                        help='only these packets and events, some of: ' + ', '.join(NAMES))
    parser.add_argument('--cell', type=decimal(0, 1023), nargs=2, metavar=('X', 'Y'),
                        help='only packets whose area contains this cell')
    parser.add_argument('--events', type=decimal(1, 1 << 62), nargs=2, metavar=('FIRST', 'LAST'),
                        help='only these events')
    parser.add_argument('--line', action='store_true', help='all of a packet on one line')
    parser.add_argument('--json', action='store_true', help='a JSON object for each packet, on one line')
    player.argument(parser)


def is_asked_for(words: argparse.Namespace, entry: Entry) -> bool:
    """Returns whether an entry is to be listed."""
    if words.name and entry.name not in words.name or words.cell and not holds(entry.area, words.cell):
        return False
    return not words.events or bool(words.events[0] <= entry.event <= words.events[1])


def entry_text(entry: Entry, words: argparse.Namespace) -> str:
    """Returns an entry with its fields."""
    fields = entry.fields()
    if words.json:
        area = [int(number) for number in entry.area.split() if number != '-']
        return json.dumps(dict(event=entry.event, name=entry.name, line=entry.line, area=area, fields=fields)) + '\n'
    if words.line:
        return ' | '.join([entry.line] + (['; '.join(fields)] if fields else [])) + '\n'
    return '\n    '.join((entry.line, *fields)) + '\n'


def show_refusal(said: str) -> None:
    """Prints the player's line, and the last packets before it as `list` writes them."""
    sys.stdout.flush()
    for line in said.splitlines():
        last = re.fullmatch(r'psxgpu: last (\d+) (\d+) (\d+)', line)
        if last:
            event, number, word = map(int, last.groups())
            line = 'last: %d %s %08x' % (event, class_name(number, word), word)
        print(line, file=sys.stderr)


def asked_of(words: argparse.Namespace, part: Together) -> Iterator[Entry]:
    """Returns the entries of a run that are asked for. What no filter keeps is not decoded."""
    first, last = part.events()
    if words.name and part.run.name not in words.name:
        return iter(())
    if words.events and (last < words.events[0] or first > words.events[1]):
        return iter(())
    numbers = range(len(part.lines)) if not words.cell else (
        number for number, line in enumerate(part.lines) if holds(line.split(' ', 3)[3], words.cell))
    return (entry for entry in part.entries(numbers) if is_asked_for(words, entry))


def texts_of(listing: Listing, words: argparse.Namespace, is_whole: bool) -> Iterator[List[str]]:
    """Returns the texts of the entries that are asked for, those of a run together."""
    for part in listing.parts():
        if not isinstance(part, Together):
            if is_whole or is_asked_for(words, part):
                yield [entry_text(part, words)]
            continue
        found = part.texts() if is_whole and words.line and not words.json else None
        if found is not None:
            yield found
            continue
        for entry in part.entries() if is_whole else asked_of(words, part):
            yield [entry_text(entry, words)]


def write_entries(listing: Listing, words: argparse.Namespace, is_whole: bool) -> int:
    """Writes the entries that are asked for, many at once if all are. Returns their number."""
    texts: List[str] = []
    count, together = 0, TOGETHER if is_whole else 1
    try:
        for some in texts_of(listing, words, is_whole):
            texts += some
            count += len(some)
            if len(texts) >= together:
                sys.stdout.write(''.join(texts))
                texts.clear()
    finally:
        sys.stdout.write(''.join(texts))
    return count


def run(words: argparse.Namespace) -> int:
    """Prints the list."""
    if words.events and words.events[0] > words.events[1]:
        raise ToolError('--events %d %d: the first comes after the last' % tuple(words.events))
    program, name = player.find(words.player), title(words.capture)
    is_whole = not (words.name or words.cell or words.events)
    with plain(words.capture) as path:
        with reading(path) as file:
            Stream(file, name)          # a file that is not a capture is refused at once
        listing = Listing(path, name, program)
        with progress.shown(name):
            count = write_entries(listing, words, is_whole)
    if listing.refusal:
        show_refusal(listing.refusal)
        return TROUBLE
    if not count and not is_whole:
        raise ToolError('%s: nothing to list: no packet or event is as asked for' % name)
    return SAME
