"""The place at which a page opens, written as the viewer's links have it."""
from __future__ import annotations

import argparse
import re
from typing import NamedTuple, Optional, Tuple

from psxgpu.command import ToolError
from psxgpu.output import Text

VIEWS = ('picture', 'drawn', 'memory', 'texture')
COLUMNS = 1024
MOST_ROWS = 1024
LEAST_SCALE, MOST_SCALE = 1 / 8, 128
ADDRESS = re.compile(r'([0-9]{1,15})(?:\.([0-9]{1,9})(?:\+[0-9]{1,9})?)?')
NUMBER = r'[0-9]{1,4}(?:\.[0-9]{1,4})?'
ZOOM = re.compile('%s(?:,%s,%s)?' % (NUMBER, NUMBER, NUMBER))

Cell = Tuple[int, int]


class Place(NamedTuple):
    """An event or one of its items, a view, a cell, and a zoom. What is empty or None is left to the viewer."""
    at: str = ''
    view: str = ''
    cell: Optional[Cell] = None
    zoom: str = ''

    @property
    def link(self) -> str:
        """The place as a link has it, without `#`."""
        parts = {'event': self.at, 'view': self.view, 'cell': self.cell and '%d,%d' % self.cell, 'zoom': self.zoom}
        return '&'.join('%s=%s' % part for part in parts.items() if part[1])

    @property
    def event(self) -> Optional[int]:
        """The event, or None if the place has none."""
        return int(self.at.split('.')[0]) if self.at else None

    @property
    def item(self) -> int:
        """The number of the item of the event; 0 for the place after the event."""
        found = ADDRESS.fullmatch(self.at)
        return int(found[2] or 0) if found else 0


def address(text: str) -> Text:
    """Returns an address: an event as 2947, or one of its items as 2947.60."""
    if not ADDRESS.fullmatch(text):
        raise argparse.ArgumentTypeError('%s is not an event, as 2947, or one of its items, as 2947.60' % text)
    return Text(text)


def cell(text: str) -> Cell:
    """Returns a cell of video memory."""
    found = re.fullmatch('([0-9]{1,4}),([0-9]{1,4})', text)
    if not found or int(found[1]) >= COLUMNS or int(found[2]) >= MOST_ROWS:
        raise argparse.ArgumentTypeError('%s is not a cell of video memory, as 150,140' % text)
    return int(found[1]), int(found[2])


def zoom(text: str) -> Text:
    """Returns a zoom: a scale, or a scale and the pixel in the middle."""
    if not ZOOM.fullmatch(text) or not LEAST_SCALE <= float(text.split(',')[0]) <= MOST_SCALE:
        raise argparse.ArgumentTypeError('%s is not a scale from 0.125 to 128, as 4, or one with the pixel in the '
                                         'middle, as 4,160,120' % text)
    return Text(text)


def refuse_cell(place: Place, rows: int, name: str) -> None:
    """Raises ToolError if the cell is not in video memory of so many rows."""
    if place.cell and place.cell[1] >= rows:
        raise ToolError('%s: there is no cell %d,%d: video memory has %d rows' % (name, *place.cell, rows))
