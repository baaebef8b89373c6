"""Which kinds a test of the conformance suite shows: one that the player does not pass, with a packet that has all that
the kind needs."""
from __future__ import annotations

import io
from typing import Dict, Iterator, List, Tuple

from psxgpu.conformance.chapters import CHAPTERS
from psxgpu.conformance.judging import DIFFERS, FAILED, Judge
from psxgpu.conformance.suite import Test
from psxgpu.fuzz.conditions import DRAWN, facts_of
from psxgpu.fuzz.kinds import Kind
from psxgpu.fuzz.making import packets_of
from psxgpu.packets.grammar import COPY, FILL, LOAD
from psxgpu.packets.split import Splitter
from psxgpu.players.bench import Experiment
from psxgpu.players.named import Player
from psxgpu.reduce.features import name_of
from psxgpu.stream import GP0, GP1, Stream

SEEN = (*DRAWN, FILL, COPY, LOAD)
MOST_TESTS = 5              # that a kind names


def experiments_of(data: bytes) -> Iterator[Experiment]:
    """Yields each packet of a capture that draws, with the registers before it."""
    splitter = Splitter()
    for kind, _, words in Stream(io.BytesIO(data), 'test'):
        if kind == GP1:
            splitter.control(words[0])
        for packet in packets_of(words) if kind == GP0 else ():
            if name_of(packet) in SEEN:
                yield (*((opcode << 24 | value,) for opcode, value in splitter.registers.items()), packet)
            list(splitter.push(packet))
            splitter.clear()


def failing(player: Player, seconds: float) -> List[Tuple[Test, List[Experiment]]]:
    """Returns the tests that a player does not pass, with the packets of each."""
    judge = Judge(player, seconds)
    verdicts = [judge.judge(test) for chapter in CHAPTERS for test in chapter.tests if test.version == 1]
    return [(one.test, list(experiments_of(one.test.data))) for one in verdicts if one.kind in (FAILED, DIFFERS)]


def cover(kinds: Dict[str, Kind], player: Player, seconds: float) -> None:
    """Gives each kind the names of the tests that show it."""
    shown = [(test.full_name, [(name_of(one[-1]), facts_of(one)) for one in packets])
             for test, packets in failing(player, seconds)]
    for kind in kinds.values():
        kind.tests = [name for name, packets in shown
                      if any(kind.name == one and kind.rule <= facts for one, facts in packets)][:MOST_TESTS]
