"""Looks into a capture: after its packets, what they drew is read and loaded. `psxgpu.players.audit` compares it."""
import array
import io
from typing import Dict, Iterator, List, NamedTuple, Optional, Sequence, Tuple

from psxgpu.command import ToolError
from psxgpu.packets.grammar import words_of_cells
from psxgpu.stream import GP0, GP1, READ, SKIP, STAT, Stream

HEAD, END = b'PSXGPUC1', bytes(4)
AROUND = 2  # cells around an area that are looked at, too
DRAWN = ('polygon', 'line', 'polyline', 'rectangle')
Box = Tuple[int, int, int, int]     # left, top, right and bottom cell


class Target(NamedTuple):
    """A packet that can be judged: the cells that are looked at, how many it draws, and the mask setting after it."""
    event: int
    name: str
    word: int
    box: Box
    cells: int
    mask: int


class Events:
    """A flat capture with a record for each event: `ends[n]` is the place after event n in words, `lines[n]` how many
    lines `play` has written by then."""

    def __init__(self, data: bytes, name: str = 'capture') -> None:
        self.name = name
        found = Stream(io.BytesIO(data), name)
        if found.version == 3:
            raise ToolError('%s: a capture of the tall profile, which version 1 does not have' % name)
        self.stream, self.kinds, self.ends, self.lines = array.array('I'), [0], [0], [0]
        for kind, count, words in found:
            if kind not in (GP0, GP1, READ, STAT, SKIP):
                raise ToolError('%s: not flat: `psxgpu_tool flat` makes it so' % name)
            for k in range(count):
                kind = READ if kind == SKIP else kind
                self.stream.append(kind << 24 | 1)
                if kind in (GP0, GP1):
                    self.stream.append(words[k])
                self.kinds.append(kind)
                self.ends.append(len(self.stream))
                self.lines.append(self.lines[-1] + (kind in (READ, STAT)))

    def clears(self, event: int) -> bool:
        """Returns whether an event is a control word that drops what is unfinished."""
        return self.kinds[event] == GP1 and self.stream[self.ends[event] - 1] >> 24 & 0x3F < 2

    def after(self, event: int, kind: int, count: int) -> Optional[int]:
        """Returns the event that is the count-th of this kind after `event`, or None if there is none."""
        while count:
            event += 1
            if event == len(self.kinds) or self.clears(event):
                return None
            count -= self.kinds[event] == kind
        return event


def joined(one: Optional[Box], other: Optional[Box]) -> Optional[Box]:
    """Returns the box around two boxes."""
    if not one or not other:
        return one or other
    return min(one[0], other[0]), min(one[1], other[1]), max(one[2], other[2]), max(one[3], other[3])


def packets(listing: bytes) -> Iterator[Tuple[int, str, int, Optional[Box], int]]:
    """Returns event, name, word, box and mask setting of each packet of a listing. A polyline is one packet."""
    mask, line_word = 0, 0
    line_box: Optional[Box] = None
    for line in listing.decode().splitlines():
        number, name, first, *area = line.split()
        event, word, box = int(number), int(first, 16), area_of(area)
        if name == 'line' and word >> 27 & 1:
            line_word, line_box = word, joined(line_box, box)
            continue
        if name == 'finish':
            name, word, box, line_box = 'polyline', line_word, line_box, None
        if name == 'environment' and word >> 24 == 0xE6:
            mask = word & 3
        yield event, name, word, box, mask


def area_of(words: Sequence[str]) -> Optional[Box]:
    """Returns the area of a packet in a listing, or None if it has none."""
    if len(words) != 4:
        return None
    x1, y1, x2, y2 = map(int, words)
    return x1, y1, x2, y2


def seen_box(name: str, box: Box) -> Box:
    """Returns the cells that are looked at: an even number in a row."""
    around = AROUND if name in DRAWN else 0
    return (max(box[0] - around, 0) & ~1, max(box[1] - around, 0), min(box[2] + around, 1023) | 1,
            min(box[3] + around, 511))


def targets(stream: Events, listing: bytes) -> Dict[int, Target]:
    """Returns the packets that can be judged, by the event after which that is done. None is in the midst of a
    store."""
    out: Dict[int, Target] = {}
    busy = 0
    for event, name, word, box, mask in packets(listing):
        if name == 'store' and box:
            cells = (box[2] - box[0] + 1) * (box[3] - box[1] + 1)
            busy = stream.after(event, READ, words_of_cells(cells)) or event
        if box is None or name in ('store', 'irq', 'nop', 'environment') or event < busy:
            continue
        cells = (box[2] - box[0] + 1) * (box[3] - box[1] + 1)
        last = stream.after(event, GP0, words_of_cells(cells)) if name == 'load' else event
        if last:
            out[last] = Target(event, name, word, seen_box(name, box), cells, mask)
    return out


def size(box: Box) -> int:
    """Returns the number of cells of a box."""
    return (box[2] - box[0] + 1) * (box[3] - box[1] + 1)


def load(box: Box, words: "array.array[int]", mask: int) -> "array.array[int]":
    """Returns the record that loads words into a box, whatever the mask setting is."""
    x1, y1, x2, y2 = box
    corner, extent = y1 << 16 | x1, (y2 - y1 + 1) << 16 | x2 - x1 + 1
    head = [GP0 << 24 | len(words) + 5, 0xE6000000, 0xA0000000, corner, extent]
    return array.array('I', head) + words + array.array('I', [0xE6000000 | mask])


def whole(dump: bytes, mask: int) -> "array.array[int]":
    """Returns loads of all of video memory, in four parts, since not every player takes one of 1024 by 512."""
    words, out = array.array('I', dump), array.array('I')
    for left, top in ((0, 0), (512, 0), (0, 256), (512, 256)):
        part = array.array('I')
        for y in range(top, top + 256):
            part.extend(words[512 * y + left // 2:512 * y + left // 2 + 256])
        out.extend(load((left, top, left + 511, top + 255), part, mask))
    return out


def probed(stream: Events, found: Dict[int, Target], group: List[int], before: Tuple[int, "array.array[int]"],
           ours: Optional[Dict[int, "array.array[int]"]] = None) -> Tuple[bytes, Dict[int, Tuple[int, int]]]:
    """Returns the capture with a store after each target, and a load of what OURS drew if that is known; and for each
    target the line and the number of its words in what `play` writes. `before` is an event from which on all is judged,
    and the loads that bring video memory to what OURS has then."""
    out, lines, at = stream.stream[:stream.ends[before[0]]] + before[1], 0, stream.ends[before[0]]
    places: Dict[int, Tuple[int, int]] = {}
    for event in group:
        target = found[event]
        x1, y1, x2, y2 = target.box
        count = size(target.box) // 2
        out.extend(stream.stream[at:stream.ends[event]])
        out.extend([GP0 << 24 | 3, 0xC0000000, y1 << 16 | x1, (y2 - y1 + 1) << 16 | x2 - x1 + 1, READ << 24 | count])
        if ours:
            out.extend(load(target.box, ours[event], target.mask))
        places[event] = (stream.lines[event] + lines, count)
        lines += count
        at = stream.ends[event]
    return HEAD + out.tobytes() + END, places
