"""The difference of two dumps of video memory, or of two pictures: where it is, how large, and drawn."""
from typing import Any, Callable, Dict, List, Optional, Sequence, Tuple

from psxgpu.image import Image, read_picture
from psxgpu.vram import WIDTH, cells_of, shown

BIT_15 = -1                             # the size of a difference in bit 15 alone
BANDS = (1, 2, 3, 4, 8, 16, 32, 64, 128, 256)   # differences are counted from each of these up to the next


def cell_steps(a: int, b: int) -> int:
    """Returns how far two cells are apart, in steps of 31; BIT_15 if only bit 15 differs."""
    far = max(abs((a >> shift & 31) - (b >> shift & 31)) for shift in (0, 5, 10))
    return far or (BIT_15 if a != b else 0)


def pixel_steps(a: bytes, b: bytes) -> int:
    """Returns how far two pixels are apart, in steps of 255."""
    return max(abs(one - other) for one, other in zip(a, b))


class Grid:
    """Cells in rows: of a dump halfwords, of a picture triples of bytes."""

    def __init__(self, data: bytes, is_picture: bool = False) -> None:
        if is_picture:
            image = read_picture(data)
            self.width, self.height, self.pixels = image.width, image.height, image.pixels
            self.cells: Optional[Sequence[int]] = None
            self.steps: Callable[[Any, Any], int] = pixel_steps
            self.text: Callable[[Any], str] = bytes.hex
        else:
            self.cells = cells_of(data)
            self.width, self.height, self.pixels = WIDTH, len(self.cells) // WIDTH, b''
            self.steps, self.text = cell_steps, '%04x'.__mod__

    def row(self, y: int) -> Any:
        """Returns a row as a sequence that can be compared whole."""
        size = self.width * y
        if self.cells is not None:
            return self.cells[size:size + self.width]
        return self.pixels[3 * size:3 * (size + self.width)]

    def cell(self, row: Any, x: int) -> Any:
        """Returns a cell of a row: a number or three bytes."""
        return row[x] if self.cells is not None else row[3 * x:3 * x + 3]

    def image(self) -> Image:
        """Returns the grid as a picture."""
        return Image(self.width, self.height, self.pixels if self.cells is None else shown(self.cells))


class Difference:
    """Where two grids of the same shape differ by more than the tolerance. `count` is 0 if they do not."""

    def __init__(self, ours: Grid, theirs: Grid, tolerance: int = 0) -> None:
        self.ours, self.theirs = ours, theirs
        self.places: List[Tuple[int, int]] = []
        self.sizes: Dict[int, int] = {}
        for y in range(ours.height):
            one, other = ours.row(y), theirs.row(y)
            if one != other:
                self.add_row(y, one, other, tolerance)
        self.count = len(self.places)

    def add_row(self, y: int, one: Any, other: Any, tolerance: int) -> None:
        """Adds the cells of a row that differ."""
        for x in range(self.ours.width):
            a, b = self.ours.cell(one, x), self.ours.cell(other, x)
            if a != b:
                size = self.ours.steps(a, b)
                if size > tolerance or size == BIT_15:
                    self.places.append((x, y))
                    self.sizes[size] = self.sizes.get(size, 0) + 1

    def bands(self) -> str:
        """Returns how many cells differ by how much."""
        texts = ['bit 15: %d' % self.sizes[BIT_15]] if BIT_15 in self.sizes else []
        for low, high in zip(BANDS, BANDS[1:]):
            count = sum(self.sizes.get(size, 0) for size in range(low, high))
            if count:
                band = str(low) if high == low + 1 else '%d to %d' % (low, high - 1)
                texts.append('%s: %d' % (band, count))
        return ', '.join(texts)

    def lines(self, names: Tuple[str, str] = ('ours', 'theirs')) -> List[str]:
        """Returns the difference as lines of text. `names`: of the two grids."""
        if not self.count:
            return ['equal']
        x, y = self.places[0]
        one, other = (grid.text(grid.cell(grid.row(y), x)) for grid in (self.ours, self.theirs))
        return ['first differing cell: (%d, %d): %s %s, %s %s' % (x, y, names[0], one, names[1], other),
                'cells that differ: %d' % self.count,
                'their box: %d %d %d %d' % self.box(),
                'by steps: ' + self.bands()]

    def box(self, margin: int = 0) -> Tuple[int, int, int, int]:
        """Returns the box of the cells that differ, with a margin: its first column and row, its last column and row."""
        columns = [x for x, _ in self.places]
        return (max(min(columns) - margin, 0), max(self.places[0][1] - margin, 0),
                min(max(columns) + margin, self.ours.width - 1), min(self.places[-1][1] + margin, self.ours.height - 1))

    def image(self) -> Image:
        """Returns the difference as a picture: equal cells in dark gray tones, those that differ in red."""
        pixels = self.ours.image().pixels
        sums = (sum(channel) for channel in zip(pixels[::3], pixels[1::3], pixels[2::3]))
        out = bytearray(b''.join(bytes([16 + total // 8]) * 3 for total in sums))
        for x, y in self.places:
            at = 3 * (self.ours.width * y + x)
            out[at:at + 3] = b'\xff\x20\x20'
        return Image(self.ours.width, self.ours.height, bytes(out))


def beside(images: Sequence[Image]) -> Image:
    """Returns pictures of one height side by side, from left to right."""
    rows = (b''.join(image.row(y) for image in images) for y in range(images[0].height))
    return Image(sum(image.width for image in images), images[0].height, b''.join(rows))


def compared(ours: bytes, theirs: bytes, tolerance: int = 0) -> Difference:
    """Returns the difference of two dumps."""
    return Difference(Grid(ours), Grid(theirs), tolerance)
