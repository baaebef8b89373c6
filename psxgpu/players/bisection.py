"""Finds the first step of a capture for which something holds, and says in words what the step is."""
import itertools
import tempfile
from typing import Callable, Iterator, List, Optional, Sequence, Tuple

from psxgpu import progress
from psxgpu.command import reading
from psxgpu.errors import counted
from psxgpu.packets.control import control
from psxgpu.packets.fields import fields
from psxgpu.packets.grammar import LOAD
from psxgpu.packets.split import Splitter
from psxgpu.players import player
from psxgpu.players.heal import Healer
from psxgpu.players.steps import Cutter, Steps
from psxgpu.stream import GP0, GP1, KINDS, Stream


def bisect(count: int, differs: Callable[[int], bool],
           narrow: Optional[Callable[[int, int], None]] = None) -> Optional[int]:
    """Returns the first n with `differs(n)`, if it stays so; None if `differs` is false at the end. `narrow` is called
    with the bounds before each question."""
    if not differs(count):
        return None
    low, high, asked = 0, count, 1
    with progress.shown('bisect', is_quiet=True) as line:
        while low < high:
            line.part = asked / (asked + (high - low).bit_length())
            if narrow:
                narrow(low - 1, high)
            middle, asked = (low + high) // 2, asked + 1
            if differs(middle):
                high = middle
            else:
                low = middle + 1
        line.part = None
    return low


def build(path: str, name: str, classes: Sequence[str], program: str) -> Steps:
    """Returns the steps of a flat capture. The caller closes them (`with`)."""
    with reading(path) as file:
        stream = Stream(file, name)
        steps = Steps(tempfile.NamedTemporaryFile(prefix='psxgpu'), stream.version == 3)
        cutter = Cutter(steps.is_tall)
        cut = Healer(path, name, program, classes).healed(cutter) if classes else cutter.steps(stream)
        for step in cut:
            steps.add(step, step.record(), cutter.splitter.changes)
    steps.close()
    return steps


def packet_text(steps: Steps, k: int, path: str, program: str) -> Iterator[str]:
    """Returns the lines of `list` for step k, with the fields."""
    splitter = Splitter(steps.is_tall)
    splitter.registers = steps.registers_behind(k)
    nothing: Tuple[str, List[int], int] = ('', [], 0)
    with player.playing(program, ['list'], path) as run:
        listed = list(itertools.islice(run.out, steps.lines[k - 1], steps.lines[k]))
    packets = splitter.push(steps.record(k)[2])
    for line, (name, words, _) in zip(listed, itertools.chain(packets, itertools.repeat(nothing))):
        yield line.decode().strip()
        yield from ('    ' + text for text in fields(name, words, splitter.registers, splitter.rows))


def step_text(steps: Steps, k: int, path: str, program: str) -> List[str]:
    """Returns what step k is, as lines."""
    kind, _, words = steps.record(k)
    if steps.lines[k] > steps.lines[k - 1]:
        return list(packet_text(steps, k, path, program))
    before = max((j for j in range(k) if steps.lines[j] < steps.lines[k]), default=None)
    lines = [] if before is None else list(packet_text(steps, before + 1, path, program))
    if kind == GP1:
        text = 'gp1 %08x: %s' % (words[0], control(words[0], Splitter(steps.is_tall).rows))
    elif kind != GP0:
        text = KINDS[kind].lower()
    elif lines and lines[0].split()[1] == LOAD:
        return lines + ['    its data words, %d together' % len(words)]
    else:
        text = '%s of a packet that is not whole' % counted(len(words), 'word')
    return lines + ['and then ' + text] if lines else [text]
