"""Makes a film of the pictures that a capture shows.

    psxgpu film mine.capture film.mp4
    psxgpu film game.psxgpu.zst film.mp4 --rate 50 --scale 3
    psxgpu film game.psxgpu.zst film.mkv --lossless --scale 1

A frame ends at each mark (GP1(3Fh), which recorders write at a vertical blank) or, in a capture without marks, at each
flip: a write of the display start. What follows the last flip is a frame too if it has a packet. The film has the size
that most frames have, times the scale; the others are scaled to it. ffmpeg makes it, in a format that video players
show (yuv420p). With --lossless it is FFV1 in Matroska (.mkv), for archives: each pixel stays as it is.

Status: 0 written, 2 an error.
"""
import argparse

from psxgpu import progress
from psxgpu.command import ToolError, decimal, title
from psxgpu.files import plain
from psxgpu.film import encode, find_ffmpeg, form_of, frames_of
from psxgpu.output import Command, Source, Target, once, written_by_name
from psxgpu.players import player


def arguments(parser: argparse.ArgumentParser) -> None:
    """Adds the arguments of this tool."""
    parser.add_argument('capture', type=Source, metavar='CAPTURE',
                        help='a capture or a dump of a GPU; - is standard input')
    once(parser, 'film', Target, 'the film to write; the end of its name decides the format')
    parser.add_argument('--rate', type=decimal(1, 1000), default=60, metavar='N',
                        help='frames a second (default: %(default)s)')
    parser.add_argument('--scale', type=decimal(1, 16), default=2, metavar='N',
                        help='the size of a pixel (default: %(default)s)')
    parser.add_argument('--flips', action='store_true', help='a frame ends at each flip, even if there are marks')
    parser.add_argument('--lossless', action='store_true', help='FFV1 in Matroska: no pixel changes')
    parser.add_argument('--ffmpeg', type=Command, metavar='PROGRAM', help='ffmpeg (default: that of the path)')
    player.argument(parser)


def run(words: argparse.Namespace) -> None:
    """Writes the film."""
    if words.film is None:
        raise ToolError('name the film: psxgpu film %s film.mp4' % words.capture)
    if words.lossless and not words.film.endswith('.mkv'):
        raise ToolError('%s: a lossless film is one of Matroska: film.mkv' % words.film)
    program, ffmpeg, name = player.find(words.player), find_ffmpeg(words.ffmpeg), title(words.capture)
    with plain(words.capture) as path, written_by_name(words.film, [words.capture]) as target:
        try:
            pictures = frames_of(program, path, words.flips)
        except ToolError as error:
            raise ToolError('%s: %s' % (name, error)) from error
        form = form_of(pictures, words.rate, words.scale, words.lossless)
        with progress.shown(name, is_quiet=True), player.playing(program, ['frames', *pictures.ends], path) as playing:
            try:
                encode(ffmpeg, playing.out, pictures, form, target)
                playing.expect_whole()
            except ToolError as error:
                refused = player.refusal(program, path)
                raise ToolError('%s: %s' % (name, refused) if refused else
                                str(error).replace(target, words.film)) from error
