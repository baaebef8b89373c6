"""Kinds of differences, and the folder that keeps them: NAME.json, and the capture, log, script and picture of each."""
from __future__ import annotations

import json
import os
from dataclasses import asdict, dataclass, field
from typing import Any, Dict, FrozenSet, List, Optional, Sequence

from psxgpu.fuzz.conditions import NO_CONDITIONS, VAGUE, facts_of, label
from psxgpu.fuzz.rules import Samples
from psxgpu.output import Content, Folder, write_several
from psxgpu.packets.deciders import Decision, decision
from psxgpu.players.bench import Experiment
from psxgpu.players.looks import similar
from psxgpu.reduce.features import name_of

KINDS = 'kinds'
STATUS, READS = 'status', 'reads'        # names of kinds that are no packets
AFTER = 'a read after the words of a store'         # facts of reads
ASKED_NOTHING = 'no question before it', 'a load and no question before it'
CORNER = 'an area corner with Y above 511'          # a fact of packets, too
UNUSED = ' with bits that mean nothing'  # a fact of a sequence: after the name of a packet
KEPT = 10                   # batches after which a worker keeps what it has seen
MOST_WORDS = 30             # of a capture; more are remarked
Facts = FrozenSet[str]
TEXTS = {'unused-bits': 'bits that mean nothing', 'factor': 'a factor', 'texture': 'a texture', 'x-flip': 'X flip',
         'y-flip': 'Y flip', 'display-bit': 'bit 10 of E1h', 'bit-11': 'bit 11 of E1h', 'blend-mode': 'a blending mode',
         'depth': 'another depth', 'page': 'another page', 'window': 'a texture window',
         'area-start': 'an area from another cell', 'area-end': 'an area to another cell', 'offset': 'a drawing offset',
         'forced-mask': 'forced mask bits', 'tested-mask': 'tested mask bits'}
# How a fact begins, and facts that it implies.
IMPLIED = [(begin, ('texture', 'depth', 'page')) for begin in (
    'a scaled', 'a page', 'a palette', 'U ', 'V ', 'an even U', 'a window', 'its texels', 'its palette', 'depth 3',
    '4-bit', '8-bit', '15-bit')] + [
    ('several colours', ('shades',)), ('blending', ('semi-transparency', 'blend-mode')),
    ('a sum beyond', ('offset',)), ('an offset', ('offset',)), ('a negative offset', ('offset', 'an offset Y')),
    ('a window', ('window',)), ('a tie', ('sloped', 'longer than a cell')), ('steep', ('longer than a cell',)),
    ('an unfinished load', ('load',)), ('a read after', ('a store',)), ('a load and', ('load',)),
    ('sloped', ('longer than a cell',)),
    ('it overlaps itself to', ('it overlaps itself',))]


@dataclass
class Kind:
    """A kind: the packet's name, what it is for people, how players differ, the facts that it needs, and those of the
    experiment with which it was found; the words of its capture, the lines of its report, and when it was found."""
    name: str
    label: str
    look: str
    needs: List[str]
    seed: List[str]
    words: int = 0
    packets: List[str] = field(default_factory=list)
    lines: List[str] = field(default_factory=list)
    tests: List[str] = field(default_factory=list)
    found: Dict[str, float] = field(default_factory=dict)
    same: List[str] = field(default_factory=list)       # kinds of which it is a case, as experiments have shown

    @property
    def rule(self) -> Facts:
        """The facts that it needs."""
        return frozenset(self.needs)

    @property
    def is_vague(self) -> bool:
        """Whether it needs no fact but features of whole classes."""
        return self.rule <= VAGUE

    @property
    def decision(self) -> Decision:
        """Who decides."""
        return decision(self.name, self.needs)

    @property
    def sentence(self) -> str:
        """What differs, and when, in one sentence."""
        return sentence(self.label, self.needs, self.look)

    def explains(self, name: str, facts: Facts, look: str) -> bool:
        """Returns whether a difference is of this kind: it has all that the kind needs. If that is vague, it looks like
        it, too."""
        return self.name == name and self.rule <= facts and (not self.is_vague or look in similar(self.look))


def sentence(label: str, needs: Sequence[str], look: str) -> str:
    """Returns what differs, and when, in one sentence: features first, then conditions. What others imply is left
    out."""
    implied = {fact for one in needs for begin, facts in IMPLIED if one.startswith(begin) for fact in facts}
    told = [fact for fact in needs if fact not in implied and fact not in label.split(', ')]
    settings = [TEXTS.get(fact, fact) for fact in told if fact in NO_CONDITIONS]
    numbers = [fact for fact in told if fact not in NO_CONDITIONS]
    text = label + (' with ' + ' and '.join(settings) if settings else '')
    return '%s%s: %s' % (text, ', if ' + ' and '.join(numbers) if numbers else '', look)


def kind_of(experiment: Experiment, look: str, needs: Facts) -> Kind:
    """Returns a kind that was found with an experiment."""
    last = experiment[-1]
    packets = [' '.join('%08x' % word for word in packet[:12]) + (' ..' if len(packet) > 12 else '')
               for packet in experiment]
    return Kind(name_of(last), label(last), look, sorted(needs), sorted(facts_of(experiment)),
                sum(map(len, experiment)), packets)


class Store:
    """A folder of kinds. Several workers may use it: each takes what the others have found."""

    def __init__(self, path: str, maker: str) -> None:
        self.folder = Folder(path, maker, path)
        self.kinds: Dict[str, Kind] = {}
        self.folder.make(KINDS)
        self.refresh()

    def path(self, name: str) -> str:
        """Returns the path of a file."""
        return os.path.join(self.folder.path, name)

    def refresh(self) -> None:
        """Takes the kinds that other workers have found."""
        for name in os.listdir(self.path(KINDS)):
            key, ending = os.path.splitext(name)
            if ending == '.json' and key not in self.kinds:
                self.kinds[key] = read_kind(self.path(os.path.join(KINDS, name)))

    def put(self, key: str, kind: Kind, files: Sequence[Content] = ()) -> None:
        """Keeps a kind, its other files first."""
        self.kinds[key] = kind
        text = Content(self.path('%s/%s.json' % (KINDS, key)), as_json(asdict(kind)), is_text=True)
        write_several([*files, text])

    def counts(self) -> List[Dict[str, Any]]:
        """Returns the counts of all workers."""
        out = []
        for name in sorted(os.listdir(self.folder.path)):
            if name.startswith('worker-') and name.endswith('.json'):
                with open(self.path(name), encoding='ascii') as file:
                    out.append(json.load(file))
        return out

    def keep(self, worker: int, counts: Dict[str, Any], samples: Optional[Samples]) -> None:
        """Keeps the counts of a worker, and what it has seen, if that is given."""
        if samples is not None:
            text = json.dumps(samples.as_list()).encode()
            write_several([Content(self.path('samples-%d.json' % worker), text, is_text=True)])
        write_several([Content(self.path('worker-%d.json' % worker), as_json(counts), is_text=True)])


def as_json(value: object) -> bytes:
    """Returns a value as a file."""
    return (json.dumps(value, indent=1) + '\n').encode()


def read_kind(path: str) -> Kind:
    """Reads a kind."""
    with open(path, encoding='ascii') as file:
        return Kind(**json.load(file))


def read_samples(store: Store) -> Samples:
    """Returns what all workers have seen."""
    out = Samples()
    for name in sorted(os.listdir(store.folder.path)):
        if name.startswith('samples-') and name.endswith('.json'):
            with open(store.path(name), encoding='ascii') as file:
                out.take(json.load(file))
    return out
