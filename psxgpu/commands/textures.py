"""Writes each texture that a capture uses as a PNG, with its palette at that time.

    psxgpu textures mine.capture -o textures

A texture is a part of a page: page, depth, palette, window, and the box of the coordinates of a packet. It is written
again only if its texels have changed. A texture that is part of another one is left out (--parts writes it). index.html
shows all textures, with their position, the first event that uses each, and the number of packets that do. It can be
searched. sheet.png has all in one picture. Texels of 0000h, which are not drawn, are transparent. With --half, texels
with bit 15 are half transparent, as in semi-transparent packets.

The box of a polygon ends before its greatest coordinate if that seems to be the edge after the last texel. With a
texture window the box has the texels that the window shows.

Status: 0 written, 2 an error.
"""
from __future__ import annotations

import argparse
import os

from psxgpu import jobs
from psxgpu.command import title
from psxgpu.errors import counted
from psxgpu.files import plain
from psxgpu.output import Source, folder, tree
from psxgpu.players import player
from psxgpu.players.flat import flattened
from psxgpu.players.listed import Walk
from psxgpu.textures.page import page, sheet
from psxgpu.textures.parts import collected
from psxgpu.textures.pixels import png_rgba, without_parts


def arguments(parser: argparse.ArgumentParser) -> None:
    """Adds the arguments."""
    parser.add_argument('capture', type=Source, metavar='CAPTURE', help='a capture; - is standard input')
    parser.add_argument('-o', '--output', type=tree('psxgpu textures'), default='textures', metavar='DIR',
                        help='the folder to write (default: %(default)s)')
    parser.add_argument('--parts', action='store_true', help='also write textures that are part of another one')
    parser.add_argument('--half', action='store_true', help='texels with bit 15 are half transparent')
    jobs.argument(parser)
    player.argument(parser)


def run(words: argparse.Namespace) -> None:
    """Runs the command."""
    program, name = player.find(words.player), title(words.capture)
    with plain(words.capture) as path, flattened(path, program) as flat:
        found = collected(Walk(flat, name, program), words.half, words.jobs)
    textures = found.textures
    count = len(textures)
    if not words.parts:
        textures = without_parts(textures)
    with folder(words.output) as out:
        for it in textures:
            out.put(it.name, png_rgba(it.width, it.height, it.pixels))
        out.put('index.html', page(os.path.basename(name), textures).encode(errors='replace'))
        if textures:
            out.put('sheet.png', sheet(textures))
    print('%s, %d of them parts of others; %s for %s'
          % (counted(count, 'texture'), count - len(textures), counted(found.questions, 'question'),
             counted(found.packets, 'packet')))
