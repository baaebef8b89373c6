"""Sequences of control words, cut packets, stores and reads, on which the words that are read are compared."""
from __future__ import annotations

import tempfile
from collections import Counter
from typing import FrozenSet, Iterable, Iterator, List, NamedTuple, Optional, Sequence, Set, Tuple

from psxgpu.command import ToolError
from psxgpu.fuzz.conditions import transfer_facts
from psxgpu.fuzz.hunt import Hunt
from psxgpu.fuzz.kinds import AFTER, ASKED_NOTHING, CORNER, READS, STATUS, UNUSED, Kind
from psxgpu.output import Content
from psxgpu.packets.grammar import (COPY, LINE, LOAD, POLYLINE, STORE, data_words, ends_polyline,
                                    name_and_length)
from psxgpu.players.looks import LOST
from psxgpu.players.trial_run import words_of
from psxgpu.reduce.faults import WordsDiffer
from psxgpu.reduce.job import Job, Wanted
from psxgpu.reduce.report import Reduced, files_of, report_lines
from psxgpu.reduce.units import CONTROL, Record
from psxgpu.stream import GP0, GP1, HEADS, KINDS, READ, STAT, encode

SEQUENCES, MOST_REDUCED = 60, 2
REDUCING, SHARE = 'reducing sequences', 0.2         # their share of the time
MOST_SECONDS = 3.0          # of processor time, in which the words of a sequence become simpler
ALL = 0xFFFFFFFF            # bits
ENDS: Record = (GP1, 1, (0,))
CUT, INTERLACED = (0x28, 0x48, 0xA0), 0x08000024     # opcodes that are cut; the mode of 480 lines
SETTINGS, IRQ = 7, 0x1F     # the upper three bits of E0h to FFh; the opcode that sets status bit 24
STORES = frozenset(['size 0', 'an odd number of cells', 'size bits above its fields'])
CORNERS, TENTH = (0xE3, 0xE4), 1 << 19       # the tenth bit of a corner's Y
SIZES = (0x00000001, 0x00010000, 0x02010001, 0x00010401)      # of stores: 0, and with bits above the fields


class New(NamedTuple):
    """A sequence that differs: the name of its kind, the bits that differ, and what it has."""
    name: str
    bits: int
    facts: FrozenSet[str]


def control_facts(word: int) -> Set[str]:
    """Returns facts about a control word."""
    opcode, value = word >> 24, word & 0xFFFFFF
    if opcode >= 0x20:
        return {'GP1 from 40h' if opcode >= 0x40 else 'GP1(20h..3Fh)'}
    if opcode > 0x10:
        return {'GP1(11h..1Fh)'}
    if opcode < 0x10:
        return {'GP1(%02Xh)' % opcode}
    number = value & 15
    asked = '2 to 5' if 2 <= number <= 5 else str(number) if number in (7, 8) else 'of nothing'
    return {'GP1(10h) ' + asked} | ({'bits above the lowest four of GP1(10h)'} if value >> 4 else set())


def packet_facts(words: Sequence[int]) -> Tuple[str, int]:
    """Returns what words for GP0 are, and how many words a store that they open has."""
    name, wanted = name_and_length(words[0])
    if words[0] >> 29 == SETTINGS:
        return 'E%Xh' % (words[0] >> 24 & 15), 0
    if name == LINE and words[0] >> 24 & POLYLINE and not ends_polyline(words[-1]):
        wanted = len(words) + 1
    left = wanted - len(words) + (data_words(words[2]) if name == LOAD and len(words) > 2 else 0)
    if left > 0:
        return 'an unfinished load' if name == LOAD and len(words) > 2 else 'an unfinished packet', 0
    return ('a store', data_words(words[2])) if name == STORE else (name, 0)


def unused_facts(words: Sequence[int]) -> Set[str]:
    """Returns whether the opcode of a transfer has bits that mean nothing: players may not know it."""
    name = name_and_length(words[0])[0]
    return {name + UNUSED} if name in (COPY, LOAD, STORE) and words[0] >> 24 & 0x1F else set()


def corner_facts(words: Sequence[int]) -> Set[str]:
    """Returns whether a corner of the drawing area has a tenth bit of Y."""
    return {CORNER} if words[0] >> 24 in CORNERS and words[0] & TENTH else set()


def facts_of(records: Sequence[Record]) -> FrozenSet[str]:
    """Returns what a sequence has: control words, packets, and what is unfinished."""
    out: Set[str] = set()
    left, is_open = 0, False        # words of a store, and whether another word comes before them
    is_after = is_asked = False     # the last read is none of a store, and a question came after the last store
    for kind, count, words in records:
        is_open |= left > 0 and kind in (GP0, GP1)
        if kind == GP1:
            out |= control_facts(words[0])
            left = left if words[0] >> 24 & 0x3F > 1 else 0
            is_asked |= words[0] >> 24 & 0x3F > 15
        elif kind == READ:
            is_after, left = left < count, left - count
        elif kind == GP0:
            text, left = packet_facts(words)
            is_asked &= text != 'a store'
            out |= {text} | unused_facts(words) | corner_facts(words)
            out |= transfer_facts(STORE, words) & STORES if text == 'a store' else set()
    if is_open or left > 0 and records[-1][0] == STAT:
        out = out - {'a store', 'an odd number of cells'} | {'an open store'}
    if 'an unfinished load' in out:
        out.add(LOAD)
    if records[-1][0] == STAT:
        return frozenset(out - {'an odd number of cells', CORNER} or {'nothing before it'})     # these matter in reads
    out -= {'an odd number of cells'} if is_after else set()
    out |= {AFTER} if is_after and not is_asked and 'a store' in out else set()
    is_asked = any(kind == GP1 and words[0] >> 24 & 0x3F > 15 for kind, _, words in records)
    if 'an open store' not in out and not is_asked:     # settings that no question asks for
        out -= {CORNER, *('E%Xh' % number for number in range(1, 7))}
    if not is_asked and out.isdisjoint(('a store', 'an open store')):
        out.add(ASKED_NOTHING[LOAD in out])
    return frozenset(out)


def bits_text(name: str, bits: int) -> str:
    """Returns which bits of a word differ, in words."""
    if name == READS:
        return 'another word'
    found = [at for at in range(32) if bits >> at & 1]
    return 'bit%s %s' % ('s' * (len(found) > 1), ', '.join(map(str, found)))


def bits_of(look: str) -> int:
    """Returns the bits of such a text; all of them if it names none."""
    found = [int(word) for word in look.replace(',', ' ').split() if word.isdigit()]
    return sum(1 << at for at in found) or ALL


def texts_of(records: Sequence[Record]) -> List[str]:
    """Returns records as texts, of each the first words."""
    return ['%s %s' % (KINDS[kind].lower(), ' '.join('%08x' % word for word in part[:12]))
            for kind, _, part in records]


def data_of(sequences: Iterable[Sequence[Record]]) -> bytes:
    """Returns sequences as a capture."""
    return HEADS[1] + b''.join(encode(*record) for one in sequences for record in one) + bytes(4)


class BitsDiffer(WordsDiffer):
    """A word that is read, or a status, differs in one of these bits."""

    def __init__(self, wanted: int) -> None:
        super().__init__()
        self.wanted = wanted

    def differs(self, ours: int, theirs: int) -> bool:
        return bool((ours ^ theirs) & self.wanted)


def differing(records: Sequence[Record], ours: Sequence[int],
              theirs: Sequence[int]) -> Iterator[Tuple[List[Record], int]]:
    """Yields the start of a sequence up to each read that differs, and the bits in which its word does. Of the words of
    one record, the first that differs."""
    at = 0
    for k, (kind, count, words) in enumerate(records):
        if kind in (READ, STAT):
            bits = [ours[at + n] ^ theirs[at + n] for n in range(count)]
            first = next((n for n in range(count) if bits[n]), None)
            if first is not None:
                yield [*records[:k], (kind, first + 1, words)], bits[first]
            at += count


class Reading:
    """Searches with a hunt's players and folder."""

    def __init__(self, hunt: Hunt) -> None:
        self.hunt = hunt
        self.tried: Counter[New] = Counter()

    def sequence(self) -> List[Record]:
        """Returns a sequence that ends with a status."""
        r, out = self.hunt.random, [ENDS]
        for _ in range(r.randrange(1, 5)):
            out += list(self.part(r.randrange(6)))
            if r.random() < 0.3:
                out.append((STAT, 1, ()))
        return [*out, (STAT, 1, ())]

    def part(self, way: int) -> Iterator[Record]:
        """Yields records of one kind."""
        r = self.hunt.random
        if way < 2:
            opcode = r.choice((*range(9), *range(9), 0x10, 0x10, 0x10, r.randrange(0x10, 0x40), r.randrange(64, 256)))
            yield GP1, 1, (opcode << 24 | r.choice((r.randrange(16), r.getrandbits(24))),)
        elif way == 2:
            yield GP0, 1, (r.choice((IRQ, *range(0xE1, 0xE7))) << 24 | r.getrandbits(24),)
        elif way == 3:
            packet = self.hunt.maker.fresh()[-1]
            cut = r.choice((len(packet), r.randrange(1, len(packet) + 1)))
            yield GP0, cut, tuple(packet[:cut])
        elif way == 4:
            size = r.choice((1, 1, 2, 3, 5)) | r.choice((1, 1, 2, 3)) << 16
            size = r.choice(SIZES) if r.random() < 0.1 else size
            if r.random() < 0.3:        # cells that are not 0 tell what is stored
                yield GP0, 3, (0x02000000 | r.getrandbits(24), 0, 0x01FF03FF)
            yield GP0, 3, (0xC0000000, r.randrange(600) | r.randrange(400) << 16, size)
            yield READ, r.choice((data_words(size), r.randrange(1, data_words(size) + 2))), ()
        else:
            yield from r.choice((self.setting, self.drawn, self.cut, self.read))()

    def read(self) -> Iterator[Record]:
        """Yields reads of nothing."""
        yield READ, self.hunt.random.randrange(1, 3), ()

    def setting(self) -> Iterator[Record]:
        """Yields a setting, the question for one, and a read."""
        r = self.hunt.random
        yield GP0, 1, (r.randrange(0xE2, 0xE6) << 24 | r.getrandbits(24),)
        yield GP1, 1, (0x10000000 | r.randrange(16),)
        yield READ, 1, ()

    def drawn(self) -> Iterator[Record]:
        """Yields a fill or a rectangle, and reads of its cells: in interlaced modes, and without an area."""
        r = self.hunt.random
        if r.random() < 0.3:
            yield GP1, 1, (INTERLACED,)
        x, y, size = r.randrange(0, 64, 16), r.randrange(64), 16 | r.choice((1, 2, 3)) << 16
        yield GP0, 3, (r.choice((0x02, 0x60)) << 24 | r.getrandbits(24), x | y << 16, size)
        yield GP0, 3, (0xC0000000, x | y << 16, size)
        yield READ, data_words(size), ()

    def cut(self) -> Iterator[Record]:
        """Yields a packet that GP1(01h) ends, and reads of the cells that it may draw."""
        r = self.hunt.random
        words = (r.choice(CUT) << 24 | r.getrandbits(24), 0, 0x00040004, 0x00080000, 0x00080008)
        count = r.randrange(3, 5)
        yield GP0, 1, (0xE4000000 | 15 | 15 << 10,)
        yield GP0, count, words[:count]
        yield GP1, 1, (0x01000000,)
        yield GP0, 3, (0xC0000000, 0, 0x00080008)
        yield READ, 32, ()

    def step(self) -> None:
        """One batch of sequences."""
        self.hunt.counts['captures'] += SEQUENCES
        self.judge([self.sequence() for _ in range(SEQUENCES)])

    def judge(self, found: List[List[Record]]) -> None:
        """Compares sequences in one run of each player. If a player breaks down, in two halves."""
        hunt, half = self.hunt, len(found) // 2
        try:
            ours, theirs = self.words(data_of(found))
        except ToolError as how:
            for part in (found[:half], found[half:]) if half else ():
                self.judge(part)
            if not half and hunt.may_spend(REDUCING, SHARE):
                with hunt.spending(REDUCING):
                    self.keep_lost(found[0], str(how))
            return
        at = reduced = 0
        for records in found:
            count = sum(size for kind, size, _ in records if kind in (READ, STAT))
            differ = list(differing(records, ours[at:at + count], theirs[at:at + count]))
            at += count
            hunt.counts['differ'] += bool(differ)
            for start, bits in differ:
                if reduced < MOST_REDUCED and hunt.may_spend(REDUCING, SHARE):
                    reduced += self.look_into(start, bits)

    def words(self, data: bytes) -> Tuple[Sequence[int], Sequence[int]]:
        """Returns the words of both players. Raises ToolError if theirs gives fewer or more."""
        bench = self.hunt.bench
        ours, theirs = words_of(bench.ours, data, bench.seconds), words_of(bench.theirs, data, bench.seconds)
        if len(theirs) != len(ours):
            raise ToolError('%s: %d words of %d' % (bench.theirs.text, len(theirs), len(ours)))
        return ours, theirs

    def lost(self, records: List[Record]) -> str:
        """Returns how their player breaks down at a sequence; nothing if it does not."""
        try:
            self.words(data_of([records]))
        except ToolError as how:
            return str(how)
        return ''

    def smaller(self, records: List[Record], how: str) -> Tuple[List[Record], str]:
        """Returns a sequence without records and words that a break down does not need, and how it then ends."""
        for at in reversed(range(len(records))):
            kind, _, words = records[at]
            forms: List[List[Record]] = [[]]
            forms += [[(kind, k, words[:k])] for k in (1, 2, 4, 8, 16) if k < len(words)]
            for form in forms:
                rest = [*records[:at], *form, *records[at + 1:]]
                lost = self.lost(rest) if rest else ''
                if lost:
                    records, how = rest, lost
                    break
        return records, how

    def keep_lost(self, records: List[Record], how: str) -> None:
        """Keeps a sequence for which their player gives no words, unless a kind explains it. Records and words that
        this does not need are left out."""
        records, how = self.smaller(records, how)
        hunt, facts = self.hunt, facts_of(records)
        known = next((key for key, kind in hunt.store.kinds.items()
                      if kind.name == READS and kind.look == LOST and kind.rule <= facts), None)
        words = sum(len(part) for _, _, part in records)
        names = {name_and_length(part[0])[0] for kind, _, part in records if kind == GP0}
        kind = Kind(READS, READS, LOST, sorted(facts), sorted(facts | names), words, texts_of(records), [how],
                    found=dict(seconds=hunt.time, captures=hunt.counts['captures']))
        key = known or '%s-%d-%d' % (READS, hunt.seed, len(hunt.store.kinds) + 1)
        if not known:
            hunt.store.put(key, kind, [Content(hunt.store.path('kinds/%s.capture' % key), data_of([records]))])
        hunt.seen[key] += 1

    def unknown(self, new: New) -> int:
        """Returns the bits of a difference that no kind has. Counts one that all kinds together have."""
        found = {key: kind for key, kind in self.hunt.store.kinds.items()
                 if kind.name == new.name and kind.look != LOST and kind.rule <= new.facts}
        rest = new.bits
        for kind in found.values():
            rest &= ~bits_of(kind.look)
        self.hunt.seen.update([*found][:1] if not rest else ())
        return rest

    def look_into(self, records: List[Record], bits: int) -> bool:
        """Counts a sequence whose last word differs, or reduces it. Returns whether it was reduced."""
        kind = records[-1][0]
        new = New(STATUS if kind == STAT else READS, bits if kind == STAT else ALL, facts_of(records))
        new = new._replace(bits=self.unknown(new))
        self.tried[new] += 1
        if not new.bits or self.tried[new] > 1:
            return False
        with self.hunt.spending(REDUCING):
            self.reduce(records, new)
        return True

    def reduce(self, records: List[Record], new: New) -> None:
        """Reduces a sequence alone, and keeps it as a kind."""
        hunt, begin = self.hunt, self.hunt.time
        fault = BitsDiffer(new.bits)
        records = self.fewer(records, fault)
        less = new._replace(facts=facts_of(records)) if records else new
        less = less._replace(bits=self.unknown(less))
        if not less.bits or less != new and self.tried[less]:
            return
        self.tried[less] += less != new
        hunt.counts['reductions'] += 1
        found = self.reduced(self.plainer(records, fault), fault) if records else None
        if found is None:
            hunt.counts['not shown alone'] += 1
            return
        small = [record for unit in found.units for record in (unit.records or (
            (GP1 if unit.name == CONTROL else GP0, len(unit.words), unit.words),))]
        name, facts, bits = STATUS if small[-1][0] == STAT else READS, facts_of(small), ALL
        words = next((line for line in found.differs if line.startswith('word')), '')
        if name == STATUS and words:
            a, b = (int(text.split()[-1], 16) for text in words.split(','))
            bits = a ^ b
        if not self.unknown(New(name, bits, facts)):
            return
        look = bits_text(name, bits)
        kind = Kind(name, name, look, sorted(facts), sorted(facts), found.words, texts_of(small),
                    report_lines(found)[1:], found=dict(seconds=hunt.time, captures=hunt.counts['captures'],
                                                        reduced=round(hunt.time - begin, 1)))
        key = '%s-%d-%d' % (name, hunt.seed, len(hunt.store.kinds) + 1)
        path = hunt.store.path('kinds/' + key)
        hunt.store.put(key, kind, list(files_of(found, path, ['theirs: ' + hunt.bench.theirs.text])))
        hunt.seen[key] += 1

    def is_shown(self, records: List[Record], fault: BitsDiffer) -> bool:
        """Returns whether a sequence alone differs."""
        bench = self.hunt.bench
        return fault.shows(bench.ours, bench.theirs, data_of([records]), bench.seconds)

    def fewer(self, records: List[Record], fault: BitsDiffer) -> List[Record]:
        """Returns a sequence that differs, too, without records that this does not need; none if it does not differ
        alone."""
        if not self.is_shown(records, fault):
            return []
        for at in reversed(range(len(records) - 1)):
            rest = records[:at] + records[at + 1:]
            records = rest if self.is_shown(rest, fault) else records
        return records

    def plainer(self, records: List[Record], fault: BitsDiffer) -> List[Record]:
        """Returns a sequence that differs, too, whose control words have as few bits as they can."""
        for at, (kind, _, words) in enumerate(records):
            for mask in (0xFF000000, 0xFF00000F) if kind == GP1 else ():
                changed = [*records[:at], (kind, 1, (words[0] & mask,)), *records[at + 1:]]
                if self.is_shown(changed, fault):
                    records = changed
                    break
        return records

    def reduced(self, records: List[Record], fault: BitsDiffer) -> Optional[Reduced]:
        """Returns the smallest capture of a sequence, or None if it does not differ alone."""
        bench = self.hunt.bench
        with tempfile.NamedTemporaryFile(prefix='psxgpu') as file:
            file.write(data_of([records]))
            file.flush()
            try:
                with Job(bench.ours, bench.theirs, Wanted(fault, [], most=MOST_SECONDS), bench.seconds, 1) as job:
                    return job.result(file.name, 'sequence')
            except ToolError:
                return None


