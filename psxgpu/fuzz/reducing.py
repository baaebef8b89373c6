"""Reduces an experiment that differs to the smallest capture that still has what its kind needs."""
from __future__ import annotations

from functools import partial
from typing import Any, Callable, Dict, FrozenSet, Iterable, List, Optional, Sequence, Tuple

from psxgpu.errors import ToolError
from psxgpu.fuzz.conditions import SETTINGS, drawing, facts_of
from psxgpu.fuzz.kinds import MOST_WORDS, Kind, kind_of
from psxgpu.fuzz.making import packed
from psxgpu.output import Content
from psxgpu.packets.grammar import LOAD
from psxgpu.players.bench import Bench, DumpBench, Experiment, registers_of
from psxgpu.players.looks import ALONE, BIT_15, COLOURS, EDGES, NOTHING, OTHERS, SHAPES, STEP, VALUES, similar
from psxgpu.players.named import expect_dump
from psxgpu.players.probes import END, HEAD
from psxgpu.reduce.batches import BatchProber
from psxgpu.reduce.faults import DumpsDiffer, Pair
from psxgpu.reduce.features import FEATURES, name_of
from psxgpu.reduce.needs import sources_of
from psxgpu.reduce.probing import processor_time
from psxgpu.reduce.reducer import Reducer, Units
from psxgpu.reduce.report import Reduced, files_of, reduced, report_lines
from psxgpu.reduce.state import Placed, box_cells, state_units
from psxgpu.reduce.units import Unit, capture_of, load_unit
from psxgpu.stream import GP0, encode
from psxgpu.viewing.linked import page_of_reduced

MOST_PROBES, MOST_SECONDS = 900, 8.0        # of a try, and of all tries of a kind, in seconds of processor time
MOST_LOADED = 60000         # cells of what a packet reads
HEADER = 3                  # words of a load before its data
# On cells of 0 what has other colours may also be another shape: the texel 0000h is not drawn.
ALIKE: Dict[str, Sequence[str]] = {
    NOTHING: (NOTHING,), ALONE: (ALONE,), EDGES: (EDGES, OTHERS, NOTHING), OTHERS: (OTHERS, EDGES),
    BIT_15: (BIT_15, NOTHING, ALONE),
    STEP: (STEP, NOTHING, ALONE, EDGES, OTHERS), COLOURS: (COLOURS, STEP, NOTHING, ALONE, EDGES, OTHERS)}
READING = {'texture', 'tested-mask', 'semi-transparency'}
Facts = FrozenSet[str]
Files = Callable[[], List[Content]]     # made only for a kind that is kept
Found = Tuple[Kind, Files, Experiment]


class KindProber(BatchProber):
    """Probes whether players differ in a way, and whether a candidate still has the facts of a kind."""

    def __init__(self, bench: Bench, look: str, needs: Facts) -> None:
        fault = Pair(DumpsDiffer(), [fact for fact in sorted(needs) if fact in FEATURES])
        super().__init__(bench.ours, bench.theirs, fault, bench.seconds, 1)
        self.looks, self.needs = (*ALIKE[look], *(SHAPES if fault.features and look in SHAPES else ())), needs
        self.features, self.until = frozenset(fault.features), processor_time() + MOST_SECONDS
        self.is_plain = isinstance(bench, DumpBench)

    def shows(self, looks: Iterable[str]) -> bool:
        return any(look in self.looks for look in looks)

    def has(self, units: Units) -> bool:
        """Returns whether units have what the kind needs. Registers that they do not set are those of a reset."""
        packets = [unit.words for unit in units if unit.is_packet and unit.name != LOAD or unit is units[-1]]
        if not packets or name_of(packets[-1]) != self.name:
            return False
        one = packed([*((opcode << 24,) for opcode in SETTINGS), *packets])
        if any(all(FEATURES[feature](packet) == packet for packet in one) for feature in self.features):
            return False
        return self.features == self.needs or self.needs <= facts_of(one)

    name = ''

    def first(self, candidates: Iterable[Any], bytes_of: Callable[[Any], bytes]) -> Any:
        if self.count > MOST_PROBES or processor_time() > self.until:
            return None
        return super().first((units for units in candidates if self.has(units)), bytes_of)


def source_units(experiment: Experiment, dump: bytes) -> List[Unit]:
    """Returns loads of what the packets of an experiment read by their fields."""
    out: List[Unit] = []
    for k, packet in enumerate(experiment):
        name = name_of(packet)
        if packet[0] >> 24 in SETTINGS:
            continue
        for x, y, w, h in sources_of(name, packet[:3] if name == LOAD else packet, registers_of(experiment[:k + 1])):
            y &= 511
            x, w = (x, w) if x + w <= 1024 else (0, 1024)
            y, h = (y, h) if y + h <= 512 else (0, 512)
            for part in range(x, x + w, 512) if w > 0 and h > 0 else ():
                width = min(512, x + w - part)
                out.append(load_unit(part, y, width, h, box_cells(dump, part, y, width, h)))
    return out


def started(reducer: Reducer, bench: Bench, experiment: Experiment, is_small: bool) -> bool:
    """Starts from loads of what the packets read, or else from all of video memory, unless `is_small`. Returns whether
    it differs."""
    drawn = [Unit(name_of(packet), packet) for packet in drawing(experiment)]
    settings = registers_of(experiment[:len(experiment) - len(drawn)])
    loads = source_units(experiment, bench.dump)
    units = loads + state_units(settings, {}) + drawn
    if sum(unit.size for unit in loads) < MOST_LOADED and reducer.prober.first([units], reducer.capture) is not None:
        reducer.units = units
        return True
    placed = [Placed(unit, k, settings, {}) for k, unit in enumerate(drawn)]

    def dump_at(events: int) -> bytes:
        """Returns our video memory before the packet of that number."""
        words = [word for packet in experiment[:len(experiment) - len(drawn) + events] for word in packet]
        data = HEAD + bench.start.tobytes() + encode(GP0, len(words), words) + END
        return expect_dump(bench.ours, data, bench.seconds)
    if is_small or len(drawn) > 1:
        return False
    return reducer.start([placed[0]._replace(events=1)], lambda events: bench.dump) is not None


def cut_data(reducer: Reducer) -> None:
    """Leaves out data words of a large load at the end, if the players differ before it is whole."""
    unit = reducer.units[-1]
    counts = [1 << k for k in range(unit.size.bit_length()) if 1 << k < unit.size - HEADER]
    if unit.name == LOAD and unit.size > MOST_WORDS:
        reducer.take([*reducer.units[:-1], unit.with_words(unit.words[:HEADER + count])] for count in counts)


def shown(reducer: Reducer) -> Optional[Reduced]:
    """Returns what a reducer found; None if a player does not write the same again, so that dumps do not show it."""
    try:
        return reduced(reducer, 'fuzz', 0)
    except ToolError:
        return None


def files_of_kind(found: Reduced, kind: Kind, notes: List[str]) -> List[Content]:
    """Returns the files of a kind's smallest capture."""
    page = page_of_reduced(found._replace(headline=kind.sentence), kind.label, notes)
    return [*files_of(found, kind.label, notes), *page]


def reduce_kind(bench: Bench, experiment: Experiment, look: str, needs: Facts) -> Optional[Found]:
    """Returns the kind of an experiment, and the files and packets of its smallest capture; None if it is not shown
    alone. It may look otherwise on cells of 0. If it then looks otherwise on the ground, it was another difference. So
    it has to look the same. At last it is no pair: other differences of the packet may hinder that."""
    best: Optional[Found] = None
    until = processor_time() + MOST_SECONDS
    for is_strict, chosen in ((False, needs), (True, needs), (False, needs - set(FEATURES))):
        if best and not is_strict:
            break
        prober = KindProber(bench, look, needs)
        prober.name, prober.until = name_of(experiment[-1]), until
        if is_strict:
            prober.looks = tuple(similar(look))
        elif READING & facts_of(experiment):      # on other cells its texels, or what it reads, are others, too
            prober.looks = (*VALUES, *SHAPES)
        if chosen != needs:
            prober.fault = Pair(DumpsDiffer(), ())
        try:
            reducer = Reducer(prober, False)
            if not started(reducer, bench, experiment, is_strict) or not prober.has(reducer.units):
                continue
            cut_data(reducer)
            begun = reducer.units
            reducer.reduce()
            if not DumpsDiffer().shows(bench.ours, bench.theirs, capture_of(reducer.units, False), bench.seconds):
                reducer.units, prober.is_plain = begun, True
                reducer.reduce()
            found = shown(reducer)
        finally:
            prober.close()
        if found is None:
            continue
        small = tuple(unit.words for unit in reducer.units)
        kind = kind_of(small, look, needs)
        kind.lines = report_lines(found)[1:]
        best = kind, partial(files_of_kind, found, kind, ['theirs: ' + bench.theirs.text]), small
        if is_strict or chosen != needs or bench.judge([packed(small)])[0].looks & similar(look):
            return best
    return best
