"""Questions about video memory in the course of a capture, all answered in one go: by libpsxgpu in this process, or by
the program, as pictures."""
from __future__ import annotations

import tempfile
from typing import IO, Iterator, List, Optional, Sequence, Tuple

from psxgpu import progress
from psxgpu.command import BLOCK, ToolError
from psxgpu.machine import Machine, Missing, Record, library
from psxgpu.packets.grammar import RESETS
from psxgpu.players import player
from psxgpu.registers import display_mode, display_start, horizontal_range, vertical_range
from psxgpu.stream import GP0, GP1, HEADS, READ, SKIP, STAT, Stream, encode

Box = Tuple[int, int, int, int]         # x, y, width, height
Answer = Tuple[int, bytes]              # the number of a question, and the cells of its box, two bytes each
ROW = 2048                              # bytes of a row of video memory
END = bytes(4)
BYTES, CYCLES = 0x13, 4                 # the display mode of 640 pixels of 24 bits, and the cycles of its pixels


class Questions:
    """A capture, and boxes that are asked for on the way. A Stat record, which has no effect, is a question. `state`:
    the bytes of the state of a snapshot with which it begins."""

    def __init__(self, is_tall: bool, state: Optional[bytes] = None) -> None:
        self.file = tempfile.TemporaryFile(prefix='psxgpu')
        self.boxes: List[Box] = []
        self.is_tall, self.state = is_tall, state
        self.file.write(HEADS[3 if is_tall else 1])

    def record(self, kind: int, count: int, words: Sequence[int]) -> None:
        """Adds a record of the recording itself."""
        if kind != STAT:
            self.file.write(encode(READ if kind == SKIP else kind, count, words))

    def words(self, words: Sequence[int]) -> None:
        """Adds words for GP0."""
        if words:
            self.file.write(encode(GP0, len(words), words))

    def ask(self, box: Box) -> int:
        """Asks for a box. Returns the number of the question, from 0."""
        self.file.write(encode(STAT, 1))
        self.boxes.append(box)
        return len(self.boxes) - 1

    def records(self) -> Iterator[Record]:
        """Yields what was added."""
        self.file.write(END)
        self.file.seek(0)
        for kind, count, words in Stream(self.file, 'questions'):
            yield Record(kind, count, words)

    def close(self) -> None:
        """Ends the use of the file."""
        self.file.close()

    def answers(self, program: str) -> Iterator[Answer]:
        """Yields the answers in the order of the questions. `program`: psxgpu_tool, which plays without the library."""
        try:
            library()
        except Missing:
            return self.answers_of_program(program)
        return self.answers_of_library()

    def answers_of_library(self) -> Iterator[Answer]:
        """Plays the capture in this process."""
        memory, is_new, boxes = memoryview(bytearray(Machine.VRAM_ROOM)), True, enumerate(self.boxes)
        self.file.flush()
        with Machine(self.is_tall) as machine, progress.following(self.file, 'libpsxgpu'):
            if self.state:
                machine.load(self.state + END)
            size = machine.vram(into=memory)
            for record in self.records():
                if record.kind != STAT:
                    record.play(machine)
                    is_new = True
                    continue
                if is_new:
                    machine.vram(into=memory)
                    is_new = False
                number, box = next(boxes)
                yield number, cells_of_box(memory[:size], box)

    def answers_of_program(self, program: str) -> Iterator[Answer]:
        """Lets the program play the capture, with a picture in the place of each question."""
        boxes = iter(self.boxes)
        with tempfile.TemporaryFile(prefix='psxgpu') as file:
            file.write(self.state or HEADS[3 if self.is_tall else 1])
            for record in self.records():
                if record.kind == STAT:
                    file.write(display(next(boxes)))
                elif record.kind != GP1 or record.words[0] >> 24 & 0x3F in RESETS:      # the others show pictures
                    file.write(encode(record.kind, record.count, record.words))
            file.write(END)
            file.flush()
            file.seek(0)
            with player.playing(program, ['frames'], file) as run:
                for number, box in enumerate(self.boxes):
                    yield number, cells_of_picture(run.out, box)
                while run.out.read(BLOCK):      # the picture after the end
                    pass
                run.expect_whole()


def pixels_of_row(width: int) -> int:
    """Returns how many pixels of three bytes hold a row of cells: a multiple of 4, as widths of pictures are."""
    return -(-2 * width // 12) * 4


def display(box: Box) -> bytes:
    """Returns the records that show a box, as a picture whose pixels are the bytes of its cells (24 bits a pixel)."""
    x, y, w, h = box
    words = [*display_mode(BYTES), *horizontal_range(0, CYCLES * pixels_of_row(w)), *vertical_range(0, h),
             *display_start(x & 0x3FF, y & 0x3FF)]
    return b''.join(encode(GP1, 1, [word]) for word in words)


def cells_of_picture(file: IO[bytes], box: Box) -> bytes:
    """Reads the picture of a box. Returns its cells row by row, an even number of them. Raises ToolError if there is
    another picture."""
    _, _, w, h = box
    length = 3 * pixels_of_row(w)
    head = b'P6\n%d %d\n255\n' % (length // 3, h)
    found = file.read(len(head) + length * h)
    if len(found) != len(head) + length * h or not found.startswith(head):
        raise ToolError('the player writes no picture of %d by %d pixels where it should' % (length // 3, h))
    if length == 2 * w:
        return found[len(head):]
    view = memoryview(found)
    rows = range(len(head), len(found), length)
    return b''.join([view[at:at + 2 * w] for at in rows]) + bytes(2 * (w * h % 2))


def cells_of_box(memory: memoryview, box: Box) -> bytes:
    """Returns the cells of a box of video memory, row by row, as a store gives them: an even number. A box that reaches
    over an edge continues at the opposite one."""
    x, y, w, h = box
    left, right = 2 * x, 2 * min(x + w, ROW // 2)
    rest = 2 * max(0, x + w - ROW // 2)
    parts = []
    for row in range(y, y + h):
        at = row * ROW % len(memory)
        parts.append(memory[at + left:at + right])
        if rest:
            parts.append(memory[at:at + rest])
    return b''.join(parts) + bytes(2 * (w * h % 2))
