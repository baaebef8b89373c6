"""Makes the test program of a capture. psxgpu_tool takes DMA out of it and knows what the program has to show."""
import os
import tempfile
from typing import List, NamedTuple, Optional

from psxgpu.command import ToolError
from psxgpu.console import sums
from psxgpu.console.image import Image, NoRoom
from psxgpu.console.plan import Plan
from psxgpu.console.source import Source
from psxgpu.console.stretch import Frames, write_stretch
from psxgpu.output import writing
from psxgpu.stream import HEADS, READ, SKIP, STAT, Stream, encode


class Program(NamedTuple):
    """A PS-X EXE, and a line for each thing in it that a console may do otherwise."""
    executable: bytes
    warnings: List[str]


def crc_of_reads(flat: Source, plan: Plan) -> int:
    """Returns the CRC of the words that the plan reads, as psxgpu_tool has them: each read as one that is shown."""
    with tempfile.TemporaryDirectory(prefix='psxgpu') as folder:
        shown = flat._replace(path=os.path.join(folder, 'shown'))
        with open(flat.path, 'rb') as file, writing(shown.path) as target:
            target.write(HEADS[2])
            for kind, count, words in Stream(file, flat.name):
                if kind != STAT:
                    target.write(encode(READ if kind == SKIP else kind, count, words))
            target.write(bytes(4))
        lines = shown.answer('play').decode().split()
    return sums.of_reads((int(line, 16) for line in lines if line != 'status'), plan.reads)


class Choices(NamedTuple):
    """How a program is made. `check`: it compares at its end. `blanks`: a name of plan.BLANKS. `packs`: its orders are
    packed, even if there is room for them as they are. `frames`: these alone, with the state before them."""
    check: bool = False
    blanks: str = 'marks'
    packs: bool = False
    frames: Frames = Frames(0, None)


def build(flat: Source, choices: Choices, cells: Optional[bytes]) -> Program:
    """Returns the program of a flat capture. NoRoom if main memory is too small."""
    image = Image(choices.blanks, cells, choices.packs)
    with open(flat.path, 'rb') as file:
        for record in Stream(file, flat.name):
            image.take(*record)
    image.end(crc_of_reads(flat, image.plan) if choices.check else 0)
    return Program(image.executable(), image.plan.warnings())


def build_smallest(flat: Source, choices: Choices) -> Program:
    """Returns the program of a flat capture, packed if there is no room for it otherwise. ToolError if there is none."""
    cells = flat.answer('vram') if choices.check else None
    try:
        return build(flat, choices, cells)
    except NoRoom:
        if choices.packs:
            raise
        return build(flat, choices._replace(packs=True), cells)


def make(source: Source, choices: Choices) -> Program:
    """Returns the test program of a capture. ToolError, with the reason, if there is none."""
    if source.version() == 3:
        raise ToolError('%s: version 3 has 1024 rows of video memory, a console 512' % source.name)
    with tempfile.TemporaryDirectory(prefix='psxgpu') as folder:
        flat = source._replace(path=os.path.join(folder, 'flat'))
        source.play(flat.path, 'flat')
        try:
            if choices.frames != Frames(0, None):
                whole, flat = flat, flat._replace(path=os.path.join(folder, 'stretch'))
                write_stretch(whole, choices.frames, flat.path)
            return build_smallest(flat, choices)
        except ToolError as error:
            raise ToolError('%s: %s' % (source.name, error)) from error
