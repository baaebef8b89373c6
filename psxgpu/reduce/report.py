"""What is written of a reduced capture: NAME.capture, NAME.log, NAME.py, NAME.png, and at most ten lines."""
from __future__ import annotations

from typing import Iterator, List, NamedTuple, Optional, Sequence, Tuple

from psxgpu.difference import Difference, beside, compared
from psxgpu.errors import ToolError, counted
from psxgpu.image import Image, png
from psxgpu.output import Content
from psxgpu.packets.known import CLASSES
from psxgpu.players.named import dump_of, ending
from psxgpu.reduce.faults import BreaksDown, DumpsDiffer, WordsDiffer
from psxgpu.reduce.reducer import Reducer, known_classes
from psxgpu.reduce.state import COLUMNS, box_cells
from psxgpu.reduce.texts import described, log_lines, script
from psxgpu.reduce.units import Unit
from psxgpu.vram import shown

MOST_LINES = 10             # of the report
MOST_WORDS = 1000           # more than these are remarked
MOST_TEXT = 110             # characters of a line
MARGIN, PIXELS, MOST_SCALE = 4, 320, 16     # of the pictures: cells around, width, pixels of a cell
RED = b'\x1f\0'


class Reduced(NamedTuple):
    """A reduced capture: its units and bytes, what it comes from, how it differs, and the dumps, if these differ."""
    units: List[Unit]
    data: bytes
    is_tall: bool
    headline: str
    differs: List[str]
    dumps: Optional[Tuple[bytes, bytes]]

    @property
    def words(self) -> int:
        """The number of its words."""
        return sum(unit.size for unit in self.units)


def how_it_differs(reducer: Reducer, data: bytes) -> Tuple[List[str], Optional[Tuple[bytes, bytes]]]:
    """Returns the lines that say how both players differ on `data`, and their dumps, if these differ."""
    prober = reducer.prober
    if isinstance(prober.fault, BreaksDown):
        done = prober.theirs.run('vram', data, prober.seconds)
        return ['their player gives no dump: %s' % ending(done)], None
    if isinstance(prober.fault, WordsDiffer):
        found = prober.fault.first(prober.ours, prober.theirs, data, prober.seconds)
        return ['word %d: ours %08x, theirs %08x' % found] if found else [], None
    ours, theirs = (dump_of(player.run('vram', data, prober.seconds)) for player in (prober.ours, prober.theirs))
    tolerance = prober.fault.tolerance if isinstance(prober.fault, DumpsDiffer) else 0
    difference = compared(ours, theirs, tolerance) if ours and theirs else None
    if not ours or not theirs or difference is None or not difference.count:
        raise ToolError('the smallest capture does not show the difference again: a player writes other bytes now')
    return difference.lines(), (ours, theirs)


def reduced(reducer: Reducer, name: str, event: int) -> Reduced:
    """Returns what a reducer found for an event of the flat capture of `name`."""
    units, data = reducer.units, reducer.capture(reducer.units)
    classes = sorted(known_classes(units, reducer.is_tall) & set(CLASSES))
    headline = '%s, event %d of the flat capture: %s%s' % (
        name, event, units[-1].name, ' (%s)' % ', '.join(classes) if classes else '')
    differs, dumps = how_it_differs(reducer, data)
    return Reduced(units, data, reducer.is_tall, headline, differs, dumps)


def as_text(line: str) -> str:
    """Returns a text as `from-log` reads it: names of files need not be ASCII, or UTF-8."""
    return line.encode('ascii', 'backslashreplace').decode()


def shortened(text: str) -> str:
    """Returns a text of one line that is not too long."""
    return text if len(text) <= MOST_TEXT else text[:MOST_TEXT - 2] + '..'


def report_lines(found: Reduced) -> List[str]:
    """Returns at most ten lines: what is drawn, which cells differ, how."""
    large = ', which is large: nothing smaller shows it' if found.words > MOST_WORDS else ''
    lines = [found.headline, '%s, %s, %s%s' % (counted(len(found.units), 'packet'), counted(found.words, 'word'),
                                               counted(len(found.data), 'byte'), large)]
    texts = [shortened('  ' + text) for _, text in described(found.units, found.is_tall)]
    most = MOST_LINES - len(lines) - len(found.differs)
    if len(texts) > most:
        texts = ['  .. %d before' % (len(texts) - most + 1)] + texts[len(texts) - most + 1:]
    return lines + texts + found.differs


def magnified(dump: bytes, box: Sequence[int], scale: int) -> Image:
    """Returns a box (both corners inside) of a dump as a picture, a cell `scale` pixels wide."""
    x1, y1, x2, y2 = box
    w, h = x2 - x1 + 1, y2 - y1 + 1
    pixels = shown(box_cells(dump, x1, y1, w, h))
    rows = []
    for y in range(h):
        row = b''.join(pixels[3 * (y * w + x):3 * (y * w + x) + 3] * scale for x in range(w))
        rows.append(row * scale)
    return Image(w * scale, h * scale, b''.join(rows))


def pictures(dumps: Tuple[bytes, bytes], difference: Difference) -> Image:
    """Returns ours, theirs and what differs, side by side, around the cells that differ."""
    columns = [x for x, _ in difference.places]
    box = (max(0, min(columns) - MARGIN), max(0, difference.places[0][1] - MARGIN),
           min(COLUMNS - 1, max(columns) + MARGIN),
           min(difference.ours.height - 1, difference.places[-1][1] + MARGIN))
    scale = max(1, min(MOST_SCALE, PIXELS // (box[2] - box[0] + 1)))
    marked = bytearray(len(dumps[0]))
    for x, y in difference.places:
        marked[2 * (COLUMNS * y + x):2 * (COLUMNS * y + x) + 2] = RED
    gap = Image(scale, scale * (box[3] - box[1] + 1), bytes([128]) * (3 * scale * scale * (box[3] - box[1] + 1)))
    ours, theirs, what = (magnified(dump, box, scale) for dump in (*dumps, bytes(marked)))
    return beside([ours, gap, theirs, gap, what])


def files_of(found: Reduced, name: str, notes: Sequence[str]) -> Iterator[Content]:
    """Yields NAME.capture, NAME.log, NAME.py and, if dumps differ, NAME.png. `notes` are lines of the log's head."""
    yield Content(name + '.capture', found.data)
    log = [*(as_text('# ' + line) for line in (*report_lines(found), *notes)), *log_lines(found.units, found.is_tall)]
    yield Content(name + '.log', ''.join(line + '\n' for line in log).encode(), is_text=True)
    about = '\n'.join(['%s.' % found.headline, '', *found.differs, *notes])
    text = script(found.units, found.is_tall, name.rpartition('/')[2] + '.capture', as_text(about))
    yield Content(name + '.py', text.encode(), is_text=True)
    if found.dumps:
        yield Content(name + '.png', png(pictures(found.dumps, compared(*found.dumps))))
