"""Pictures as bytes: PNG and PPM, read and written."""
import struct
import zlib
from typing import Any, Callable, Dict, Iterable, Iterator, List, Tuple, TypeVar

from psxgpu.command import ToolError, read_whole, title, write_whole

CHANNELS = {0: 1, 2: 3, 3: 1, 4: 2, 6: 4}   # bytes of a pixel, by PNG's type of colour
SIGNATURE = b'\x89PNG\r\n\x1a\n'
Result = TypeVar('Result')


class Image:
    """A picture: three bytes a pixel, rows from the top."""

    def __init__(self, width: int, height: int, pixels: bytes) -> None:
        self.width, self.height, self.pixels = width, height, pixels

    def row(self, y: int) -> bytes:
        """Returns the bytes of a row."""
        return self.pixels[3 * self.width * y:3 * self.width * (y + 1)]


def chunk(kind: bytes, data: bytes) -> bytes:
    """Returns a chunk of a PNG."""
    return struct.pack('>I', len(data)) + kind + data + struct.pack('>I', zlib.crc32(kind + data))


def png(image: Image) -> bytes:
    """Returns a picture as PNG."""
    rows = b''.join(b'\0' + image.row(y) for y in range(image.height))
    head = struct.pack('>IIBBBBB', image.width, image.height, 8, 2, 0, 0, 0)
    return SIGNATURE + chunk(b'IHDR', head) + chunk(b'IDAT', zlib.compress(rows, 9)) + chunk(b'IEND', b'')


def ppm(image: Image) -> bytes:
    """Returns a picture as PPM."""
    return b'P6\n%d %d\n255\n' % (image.width, image.height) + image.pixels


def encoded(path: str, image: Image) -> bytes:
    """Returns the bytes of a picture: PPM if the name ends in `.ppm`, else PNG."""
    return ppm(image) if path.lower().endswith('.ppm') else png(image)


def write_image(path: str, image: Image, inputs: Iterable[str] = ()) -> None:
    """Writes a picture as `encoded` returns it. `inputs`: as `writing` has them."""
    write_whole(path, encoded(path, image), inputs)


def paeth(a: int, b: int, c: int) -> int:
    """Returns PNG's predictor: the one of left, above and above left that is nearest to a + b - c."""
    p = a + b - c
    distances = abs(p - a), abs(p - b), abs(p - c)
    return (a, b, c)[distances.index(min(distances))]


def unfiltered(kind: int, row: bytes, above: bytes, step: int) -> bytearray:
    """Returns a row of a PNG without its filter. above: the row over it; step: bytes of a pixel."""
    out = bytearray(row)
    if kind > 4:
        raise ToolError('a bad PNG: filter %d' % kind)
    if kind == 2:
        return bytearray((a + b) & 255 for a, b in zip(row, above))
    for i in range(len(out) if kind else 0):
        left, corner = (out[i - step], above[i - step]) if i >= step else (0, 0)
        guess = left if kind == 1 else (left + above[i]) // 2 if kind == 3 else paeth(left, above[i], corner)
        out[i] = (out[i] + guess) & 255
    return out


def chunks(data: bytes) -> Iterator[Tuple[bytes, bytes]]:
    """Returns the chunks of a PNG: kind and bytes."""
    at = len(SIGNATURE)
    while at + 12 <= len(data):
        n, kind = struct.unpack_from('>I4s', data, at)
        yield kind, data[at + 8:at + 8 + n]
        at += 12 + n


def colors(row: bytes, kind: int, palette: bytes) -> bytes:
    """Returns the three bytes of each pixel of a PNG's row."""
    step = CHANNELS[kind]
    if kind == 3:
        return b''.join(palette[3 * index:3 * index + 3] for index in row)
    out = bytearray(3 * (len(row) // step))
    for k in range(3):
        out[k::3] = row[k if kind in (2, 6) else 0::step]
    return bytes(out)


def read_png(data: bytes) -> Image:
    """Returns the picture of a PNG of 8 bits a channel. Raises ToolError for others."""
    parts: Dict[bytes, bytes] = {}
    for name, part in chunks(data):
        parts[name] = parts.get(name, b'') + part
    try:
        width, height, depth, kind, _, _, laced = struct.unpack('>IIBBBBB', parts[b'IHDR'])
        rows = zlib.decompress(parts[b'IDAT'])
    except (KeyError, struct.error, zlib.error) as error:
        raise ToolError('a bad PNG') from error
    if depth != 8 or laced or kind not in CHANNELS:
        raise ToolError('a PNG of %d bits a channel%s: 8 bits without interlace are read'
                      % (depth, ', interlaced' if laced else ''))
    length = width * CHANNELS[kind]
    if not width or len(rows) != (length + 1) * height:
        raise ToolError('a bad PNG: %d bytes for %d by %d' % (len(rows), width, height))
    out: List[bytes] = []
    above = bytearray(length)
    for at in range(0, len(rows), length + 1):
        above = unfiltered(rows[at], rows[at + 1:at + 1 + length], above, CHANNELS[kind])
        out.append(colors(above, kind, parts.get(b'PLTE', b'')))
    return Image(width, height, b''.join(out))


def read_ppm(data: bytes) -> Image:
    """Returns the picture of a PPM. Comments and any white space may be between its numbers. Raises ToolError for
    others."""
    numbers: List[int] = []
    at = 2
    while len(numbers) < 3 and at < len(data):
        if data[at:at + 1] == b'#':
            at = data.find(b'\n', at) % (len(data) + 1)
        elif data[at:at + 1].isspace():
            at += 1
        else:
            begin = at
            while data[at:at + 1].isdigit():
                at += 1
            if at == begin:
                break
            numbers.append(int(data[begin:at]))
    if len(numbers) < 3 or 0 in numbers or numbers[2] != 255:
        raise ToolError('a bad PPM: width, height and 255 are wanted, found %s' % (numbers or 'no numbers'))
    width, height, pixels = numbers[0], numbers[1], data[at + 1:]
    if len(pixels) != 3 * width * height:
        raise ToolError('a bad PPM: %d bytes for %d by %d' % (len(pixels), width, height))
    return Image(width, height, bytes(pixels))


def is_picture(data: bytes) -> bool:
    """Returns whether a file is a PPM or a PNG."""
    return data[:2] == b'P6' or data[:8] == SIGNATURE


def read_picture(data: bytes) -> Image:
    """Returns the picture of a PPM or a PNG."""
    return read_png(data) if data[:8] == SIGNATURE else read_ppm(data)


def about(path: str, read: Callable[..., Result], *arguments: Any) -> Result:
    """Returns what `read` returns. Its errors get the name of the file."""
    try:
        return read(*arguments)
    except ToolError as error:
        raise ToolError('%s: %s' % (title(path), error)) from error


def load_file(path: str) -> Tuple[bytes, bool]:
    """Returns the bytes of a file, and whether they are a picture."""
    data = read_whole(path)
    return data, is_picture(data)
