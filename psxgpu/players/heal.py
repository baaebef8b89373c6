"""Leaves packets of known classes out of a capture: each is replaced by a load of what psxgpu_tool draws with it. So
whatever another player makes of them, all that follows begins from the same cells."""
import contextlib
import tempfile
from typing import IO, Dict, Iterable, Iterator, List, Optional, Sequence, Tuple

from psxgpu.command import ToolError
from psxgpu.packets.known import is_known
from psxgpu.packets.grammar import LINE, POLYGON, TEXTURED, data_words
from psxgpu.packets.split import Splitter
from psxgpu.players import player
from psxgpu.players.steps import Cutter, Step
from psxgpu.stream import GP0, HEADS, READ, STAT, Stream, encode

MOST_WORDS = 1 << 26        # of all loads together: 256 MB
Box = Tuple[int, int, int, int]     # left, top, right and bottom cell


def packets_in(step: Step) -> Iterator[Tuple[str, Sequence[int]]]:
    """Returns the packets of a step, a polyline's segments one by one."""
    if step.name == LINE:
        yield from ((name, words) for name, words, _ in Splitter().push(step.words))
    elif step.name:
        yield step.name, step.words


def box_of(lines: Iterable[bytes]) -> Optional[Box]:
    """Returns the box that holds the areas of lines of `list`, or None."""
    areas = [list(map(int, line.split()[3:])) for line in lines if not line.endswith(b'-\n')]
    areas = [area for area in areas if area]
    if not areas:
        return None
    left, top, right, bottom = zip(*areas)
    return min(left), min(top), max(right), max(bottom)


def corner_and_size(box: Box) -> List[int]:
    """Returns the words of corner and size of a transfer."""
    x1, y1, x2, y2 = box
    return [y1 << 16 | x1, (y2 - y1 + 1) << 16 | x2 - x1 + 1]


class Healer:
    """A flat capture, some of whose steps are of known classes."""

    def __init__(self, path: str, name: str, program: str, classes: Sequence[str]) -> None:
        self.path, self.name, self.player, self.classes = path, name, program, classes
        self.boxes: Dict[int, Optional[Box]] = {}       # of the known steps, by their numbers

    def steps(self, file: IO[bytes]) -> Iterator[Step]:
        """Returns the steps of the capture."""
        stream = Stream(file, self.name)
        return Cutter(stream.version == 3).steps(stream)

    def is_known(self, step: Step) -> bool:
        """Returns whether a step has a packet of a known class."""
        return any(is_known(self.classes, name, words, step.registers)
                   for name, words in packets_in(step))

    def ask(self, questions: IO[bytes], is_tall: bool) -> None:
        """Writes the capture with a store of its area after each known step."""
        questions.write(HEADS[3 if is_tall else 1])
        asked = 0
        with open(self.path, 'rb') as file, player.playing(self.player, ['list'], self.path) as listed:
            for k, step in enumerate(self.steps(file), 1):
                questions.write(step.record())
                lines = [listed.out.readline() for _ in range(step.lines)]
                if self.is_known(step):
                    self.boxes[k] = box = box_of(lines)
                    if box:
                        asked += self.ask_one(questions, corner_and_size(box))
                    if asked > MOST_WORDS:
                        raise ToolError('%s: the areas of what is ignored are too large' % self.name)
        questions.write(bytes(4))
        questions.flush()
        questions.seek(0)

    @staticmethod
    def ask_one(questions: IO[bytes], place: List[int]) -> int:
        """Writes a store and its reads. Returns the number of reads."""
        questions.write(encode(GP0, 3, [0xC0000000, *place]))
        count = data_words(place[1])
        questions.write(encode(READ, count))
        return count

    def healed(self, cutter: Cutter) -> Iterator[Step]:
        """Returns the steps of the capture, with a load in place of each known one."""
        with contextlib.ExitStack() as stack:
            file = stack.enter_context(open(self.path, 'rb'))
            questions = stack.enter_context(tempfile.TemporaryFile())
            with open(self.path, 'rb') as head:
                is_tall = Stream(head, self.name).version == 3
            self.ask(questions, is_tall)
            answers = stack.enter_context(player.playing(self.player, ['play'], questions)).out
            for k, step in enumerate(cutter.steps(Stream(file, self.name)), 1):
                if step.kind in (READ, STAT):
                    for _ in range(step.count):
                        answers.readline()
                yield self.replaced(step, self.boxes[k], answers) if k in self.boxes else step

    @staticmethod
    def replaced(step: Step, box: Optional[Box], answers: IO[bytes]) -> Step:
        """Returns a step that brings registers and cells to where `step` brings them."""
        words: List[int] = []
        if step.name == POLYGON and step.words[0] >> 24 & TEXTURED:
            words.append(0xE1000000 | step.registers[0xE1])
        if box:
            place, mask = corner_and_size(box), step.registers[0xE6]
            data = [int(answers.readline(), 16) for _ in range(data_words(place[1]))]
            words += [0xE6000000, 0xA0000000, *place, *data, 0xE6000000 | mask]
        return Step(None, words or [0], step.registers, step.lines)
