"""Converts a dump of video memory or a PPM to a PNG, or shows what a capture has drawn.

    psxgpu_tool vram < mine.capture > vram.bin
    psxgpu picture vram.bin vram.png
    psxgpu picture vram.bin page.png --bits 4 --palette 0 480 --box 640 0 64 256
    psxgpu picture mine.capture -o shown.png --at 2947
    psxgpu picture mine.capture -o vram.png --at 2947 --vram

A dump is drawn as cells of 15 bits, or as texels of 4 or 8 bits (four or two a cell), in gray or with a palette of the
same dump. Of a capture, a snapshot or a GPU dump, the picture is the displayed one after event N (--at), else at the
end. With --vram, or an option for dumps, it is video memory at that time. `psxgpu packets` has the numbers of events.
A picture whose name ends in .ppm is written as PPM. Status: 0 written, 2 an error.
"""
import argparse
from typing import Optional, Sequence

from psxgpu.command import ToolError, decimal, title
from psxgpu.files import RECORDINGS, is_recording, plain
from psxgpu.image import Image, about, load_file, read_picture, write_image
from psxgpu.output import Picture, Source, once
from psxgpu.players import moment, player
from psxgpu.vram import WIDTH, cells_of, palette_of, shown, texels


def arguments(parser: argparse.ArgumentParser) -> None:
    """Adds the arguments of this tool."""
    parser.add_argument('source', type=Source, metavar='SOURCE',
                        help='a dump, a picture or a capture; - is standard input')
    once(parser, 'picture', Picture, 'the picture to write; - is standard output')
    parser.add_argument('--at', type=decimal(0, 1 << 62), metavar='N', help='of a capture: after event N')
    parser.add_argument('--vram', action='store_true', help='of a capture: all of video memory')
    parser.add_argument('--bits', type=int, choices=(4, 8, 15), default=15, help='bits of a texel of the dump')
    parser.add_argument('--palette', type=decimal(0, 1023), nargs=2, metavar=('X', 'Y'),
                        help='the first cell of the palette')
    parser.add_argument('--box', type=decimal(0, 1024), nargs=4, metavar=('X', 'Y', 'W', 'H'),
                        help='the cells to draw (default: all)')
    player.argument(parser)


def draw(cells: Sequence[int], words: argparse.Namespace) -> Image:
    """Returns the picture of a dump."""
    height = len(cells) // WIDTH
    x, y, w, h = words.box or (0, 0, WIDTH, height)
    if not (w and h and x + w <= WIDTH and y + h <= height):
        raise ToolError('box: %d %d %d %d is not within %d by %d' % (x, y, w, h, WIDTH, height))
    part = [cell for row in range(y, y + h) for cell in cells[WIDTH * row + x:WIDTH * row + x + w]]
    if words.bits == 15:
        return Image(w, h, shown(part))
    return Image(w * 16 // words.bits, h, texels(part, words.bits, palette_of(cells, words.bits, words.palette)))


def is_of_dumps(words: argparse.Namespace) -> bool:
    """Returns whether there is an option for dumps."""
    return bool(words.box or words.palette or words.bits != 15)


def of_recording(words: argparse.Namespace, at: Optional[int]) -> Image:
    """Returns the picture of a capture after an event, or at its end."""
    program, is_vram = player.find(words.player), words.vram or is_of_dumps(words)
    with plain(words.source) as path:
        data = about(words.source, moment.output_at, path, program, 'vram' if is_vram else 'shot', at)
    return about(words.source, lambda: draw(cells_of(data), words) if is_vram else read_picture(data))


def of_file(words: argparse.Namespace) -> Image:
    """Returns the picture of a dump or a picture."""
    data, is_picture = load_file(words.source)
    if data.startswith(RECORDINGS):
        raise ToolError('%s: a capture: name its file, or an event with --at' % title(words.source))
    if words.vram:
        raise ToolError('%s: not a capture, and --vram is for captures' % title(words.source))
    if not is_picture:
        return draw(about(words.source, cells_of, data), words)
    if is_of_dumps(words):
        raise ToolError('%s: a picture, and --bits, --palette and --box are for dumps' % words.source)
    return about(words.source, read_picture, data)


def run(words: argparse.Namespace) -> None:
    """Writes the picture."""
    if words.picture is None:
        raise ToolError('name the picture: psxgpu picture %s picture.png' % words.source)
    is_capture = words.at is not None or is_recording(words.source)
    write_image(words.picture, of_recording(words, words.at) if is_capture else of_file(words), [words.source])
