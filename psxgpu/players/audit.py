"""Judges each packet of a capture by itself: both players have the same video memory before it."""
import array
import collections
from typing import TYPE_CHECKING, Dict, Iterator, List, Tuple

from psxgpu import progress
from psxgpu.command import ToolError
from psxgpu.errors import counted
from psxgpu.jobs import in_order
from psxgpu.players.named import Player, ending
from psxgpu.players.probes import DRAWN, END, HEAD, Events, Target, probed, size, targets, whole

DUMP = 1 << 20
WORDS = 4 << 20  # words that are read and loaded in one run of a player
Found = Dict[int, Target]
if TYPE_CHECKING:
    Words = array.array[int]
else:
    Words = array.array


def output(player: Player, mode: str, data: bytes) -> bytes:
    """Returns what a player writes for a capture. Raises ToolError if it does not end with 0."""
    done = player.run(mode, data)
    if done.status:
        raise ToolError('%s, mode %s: %s' % (player.text, mode, ending(done)))
    return done.out


def passes(found: Found, first: int, last: int) -> Iterator[List[int]]:
    """Returns the targets in groups that one run can take."""
    group: List[int] = []
    words = 0
    for event in sorted(found):
        if first <= found[event].event <= last:
            group.append(event)
            words += size(found[event].box) // 2
            if words > WORDS:
                yield group
                group, words = [], 0
    if group:
        yield group


def beginning(stream: Events, found: Found, group: List[int], ours: Player) -> Tuple[int, Words]:
    """Returns the event from which a group's run differs from what OURS plays, and the loads of what OURS has there:
    the last packet before the group that could be judged."""
    event = max((event for event in found if event < group[0]), default=0)
    if not event:
        return 0, array.array('I')
    dump = output(ours, 'vram', HEAD + stream.stream[:stream.ends[event]].tobytes() + END)
    if len(dump) != DUMP:
        raise ToolError('%s vram: %d bytes, which is not a dump' % (ours, len(dump)))
    return event, whole(dump, found[event].mask)


def read_back(player: Player, data: bytes, places: Dict[int, Tuple[int, int]]) -> Dict[int, Words]:
    """Returns the words that a player read after each target."""
    text = output(player, 'play', data)
    out: Dict[int, Words] = {}
    for event, (line, count) in places.items():
        try:
            words = array.array('I', bytes.fromhex(text[9 * line:9 * (line + count)].decode('ascii')))
        except ValueError as bad:
            raise ToolError('%s, mode play: line %d is not a word of eight digits' % (player.text, line + 1)) from bad
        if len(words) != count:
            raise ToolError('%s, mode play: fewer words than the capture reads' % player.text)
        words.byteswap()
        out[event] = words
    return out


def class_of(name: str, word: int) -> str:
    """Returns a packet's class, for people."""
    opcode = word >> 24
    textured = opcode & 4 and name in ('polygon', 'rectangle')
    shaded = opcode & 16 and name in ('polygon', 'line', 'polyline')
    words = [('quad' if opcode & 8 else 'triangle') if name == 'polygon' else name]
    words += ['shaded'] * bool(shaded) + ['textured'] * bool(textured) + ['raw'] * bool(textured and opcode & 1)
    return ' '.join(words + ['semi'] * bool(opcode & 2 and name in DRAWN))


def cells_of(words: Words) -> "array.array[int]":
    """Returns the cells in words."""
    return array.array('H', words.tobytes())


def is_far(a: int, b: int) -> bool:
    """Returns whether two cells differ by more than one step of a channel, or in bit 15."""
    return (a >> 15 != b >> 15 or abs((a & 31) - (b & 31)) > 1 or abs((a >> 5 & 31) - (b >> 5 & 31)) > 1
            or abs((a >> 10 & 31) - (b >> 10 & 31)) > 1)


class Row:
    """What was found of a class."""

    def __init__(self) -> None:
        self.packets = self.equal = self.cells = self.differ = self.far = 0
        self.first = ''
        self.event = 0      # after the first packet that differs and its data words

    def as_object(self) -> Dict[str, object]:
        """Returns what was found, for JSON."""
        return dict(packets=self.packets, equal=self.equal, cells=self.cells, differ=self.differ, far=self.far,
                    first=self.first, event=self.event)

    def take(self, target: Target, event: int, ours: Words, others: Words) -> None:
        """Adds a packet: the words that both players read after it, which is after `event`."""
        self.packets += 1
        self.cells += len(ours) * 2
        if ours == others:
            self.equal += 1
            return
        mine, theirs = cells_of(ours), cells_of(others)
        pairs = {pair: n for pair, n in collections.Counter(zip(mine, theirs)).items() if pair[0] != pair[1]}
        count = sum(pairs.values())
        self.differ += count
        self.far += sum(n for pair, n in pairs.items() if is_far(*pair))
        if not self.first:
            self.event = event
            k = next(k for k in range(len(mine)) if mine[k] != theirs[k])
            x1, y1, x2, _ = target.box
            self.first = 'event %d %08x: %s, first (%d, %d): ours %04x, theirs %04x' % (
                target.event, target.word, counted(count, 'cell'), x1 + k % (x2 - x1 + 1), y1 + k // (x2 - x1 + 1),
                mine[k], theirs[k])


def audit(data: bytes, ours: Player, theirs: Player, first: int, last: int, name: str = 'capture',
          jobs: int = 1) -> Dict[str, Row]:
    """Returns a row for each class of packets from event `first` to event `last`. Raises ToolError if there is none. At
    most `jobs` groups of packets are played side by side."""
    stream = Events(data, name)
    listing = output(ours, 'list', HEAD + stream.stream.tobytes() + END)
    try:
        found = targets(stream, listing)
    except (ValueError, IndexError) as bad:
        raise ToolError('%s list: not a list of packets: %s' % (ours.text, bad)) from bad
    rows: Dict[str, Row] = collections.defaultdict(Row)
    groups = list(passes(found, first, last))

    def words_of(group: List[int]) -> Tuple[Dict[int, Words], Dict[int, Words]]:
        before = beginning(stream, found, group, ours)
        mine = read_back(ours, *probed(stream, found, group, before))
        return mine, read_back(theirs, *probed(stream, found, group, before, mine))

    found_words = in_order(jobs, words_of, groups)
    for group, (mine, other) in zip(progress.counted(groups, name, is_quiet=True), found_words):
        for event in group:
            target = found[event]
            rows[class_of(target.name, target.word)].take(target, event, mine[event], other[event])
    if not rows:
        raise ToolError('%s: no packet to judge from event %d to event %d'
                      % (name, first, min(last, max(first, len(stream.kinds) - 1))))
    return rows
