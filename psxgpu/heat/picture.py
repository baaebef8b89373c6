"""The counts of a frame as numbers and as a picture."""
from __future__ import annotations

import collections
import functools
import itertools
import sys
from array import array
from typing import Counter, Dict, List, Tuple

from psxgpu.heat.counting import COLUMNS, Frame
from psxgpu.image import Image
from psxgpu.players.listed import Area

Color = Tuple[int, int, int]
FEW = 32            # areas that are compared with each other
RAMP: Tuple[Tuple[int, Color], ...] = (
    (0, (0, 0, 0)), (1, (24, 40, 120)), (2, (32, 110, 150)), (3, (50, 160, 90)), (4, (170, 190, 50)),
    (6, (230, 150, 40)), (8, (220, 60, 40)), (12, (240, 140, 160)), (16, (255, 255, 255)))


class Counts:
    """How often each cell of an area is covered: `often` has how many cells are covered how often, `cells` the counts row
    by row."""

    def __init__(self, frame: Frame, rows: int) -> None:
        self.sums = frame.sums
        self.moved = [part for area in frame.areas for part in parts_of(area, rows)]
        self.boxes = [(x, y, x + w - 1, y + h - 1) for x, y, w, h in frame.sums]
        self.area = hull(self.moved + self.boxes)
        self.often = self.often_apart() if are_apart(self.moved + self.boxes) else often_of(self.cells)

    @property
    def width(self) -> int:
        """Cells of a row."""
        return self.area[2] - self.area[0] + 1

    @property
    def size(self) -> int:
        """The cells of the area."""
        return size_of(self.area)

    @functools.cached_property
    def cells(self) -> array[int]:
        """The count of each cell."""
        return cells_of(self)

    def often_apart(self) -> Dict[int, int]:
        """Returns how many cells are covered how often, if no cell is in two of the boxes."""
        often: Counter[int] = collections.Counter()
        for (_, _, w, h), total in self.sums.items():
            often.update(often_of(array('H', total.to_bytes(2 * w * h, 'little'))))
        often.update({1: sum(map(size_of, self.moved))})
        often.update({0: self.size - sum(map(size_of, self.moved + self.boxes))})
        return {count: cells for count, cells in often.items() if cells}

    def total(self) -> int:
        """Returns how many cells are covered, each as often as it is."""
        return sum(count * cells for count, cells in self.often.items())

    def covered(self) -> int:
        """Returns how many cells are covered at least once."""
        return self.size - self.often.get(0, 0)

    def most(self) -> int:
        """Returns how often the cell is covered that is covered most."""
        return max(self.often)


def parts_of(area: Area, rows: int) -> List[Area]:
    """Returns the parts of an area that goes on at the opposite edges."""
    x1, y1, x2, y2 = area
    columns = [(x1, min(x2, COLUMNS - 1))] + ([(0, x2 - COLUMNS)] if x2 >= COLUMNS else [])
    lines = [(y1, min(y2, rows - 1))] + ([(0, y2 - rows)] if y2 >= rows else [])
    return [(left, top, right, bottom) for left, right in columns for top, bottom in lines]


def hull(areas: List[Area]) -> Area:
    """Returns the area that holds all."""
    corners = list(zip(*areas))
    return min(corners[0]), min(corners[1]), max(corners[2]), max(corners[3])


def size_of(area: Area) -> int:
    """Returns the number of cells."""
    x1, y1, x2, y2 = area
    return (x2 - x1 + 1) * (y2 - y1 + 1)


def are_apart(areas: List[Area]) -> bool:
    """Returns whether no cell is in two of a few areas. Of many, none is compared."""
    if len(areas) > FEW:
        return False
    return not any(a[0] <= b[2] and b[0] <= a[2] and a[1] <= b[3] and b[1] <= a[3]
                   for a, b in itertools.combinations(areas, 2))


def often_of(cells: array[int]) -> Dict[int, int]:
    """Returns how many cells have each count. Few are above 255: the others are counted as bytes."""
    data = cells.tobytes()
    low, high = data[::2], data[1::2]
    if sys.byteorder == 'big':
        low, high = high, low
    if high.strip(b'\0'):
        return collections.Counter(cells)
    often, count = {}, 0
    while low:
        rest = low.translate(None, bytes([count]))
        if len(rest) < len(low):
            often[count] = len(low) - len(rest)
        low, count = rest, count + 1
    return often


def cells_of(counts: Counts) -> array[int]:
    """Returns the count of each cell of the area."""
    area, width = counts.area, counts.width
    cells = array('H', bytes(2 * counts.size))
    for (x, y, w, h), total in counts.sums.items():
        new = array('H', total.to_bytes(2 * w * h, 'little'))
        for row in range(h):
            at = (y + row - area[1]) * width + x - area[0]
            old, part = cells[at:at + w], new[row * w:(row + 1) * w]
            is_new = not old.tobytes().strip(b'\0')
            cells[at:at + w] = part if is_new else array('H', map(int.__add__, old, part))
    for x1, y1, x2, y2 in counts.moved:
        for y in range(y1, y2 + 1):
            at = (y - area[1]) * width + x1 - area[0]
            end = at + x2 - x1 + 1
            cells[at:end] = array('H', [count + 1 for count in cells[at:end]])
    return cells


def color_table(most: int) -> List[bytes]:
    """Returns the three bytes of each count up to `most`."""
    table = []
    for count in range(most + 1):
        (low, a), (high, b) = next(((one, two) for one, two in zip(RAMP, RAMP[1:]) if one[0] <= count < two[0]),
                                   (RAMP[-1], RAMP[-1]))
        part = (count - low) / (high - low) if high > low else 0.0
        table.append(bytes(round(x + (y - x) * part) for x, y in zip(a, b)))
    return table


def picture(counts: Counts) -> Image:
    """Returns the counts as colours: black never, blue once, green, yellow, red, and white from 16 on."""
    table = color_table(counts.most())
    return Image(counts.width, len(counts.cells) // counts.width, b''.join(map(table.__getitem__, counts.cells)))
