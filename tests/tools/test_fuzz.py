"""The parts of `fuzz`, and the hunt with wrong players that are functions of ours."""
import os
import random
import re
import unittest
from unittest import mock

from psxgpu.capture import Capture
from psxgpu.errors import ToolError
from psxgpu.fuzz.asking import Asking
from psxgpu.fuzz.causes import causes
from psxgpu.fuzz.conditions import closed, facts_of
from psxgpu.fuzz.deciding import of_class, of_random
from psxgpu.fuzz.hunt import Hunt, ground_of
from psxgpu.fuzz.kinds import Kind, Store
from psxgpu.fuzz.making import Maker, packed
from psxgpu.fuzz.nearby import Nearby, Seen, most_telling
from psxgpu.fuzz.reading import Reading
from psxgpu.fuzz.reading import facts_of as sequence_facts
from psxgpu.fuzz.reducing import reduce_kind
from psxgpu.fuzz.rules import Samples
from psxgpu.output import Content
from psxgpu.packets import deciders
from psxgpu.packets.generated import CLASSES
from psxgpu.players.bench import LOST, Bench, DumpBench, boxes_of
from psxgpu.players.looks import LOST as BROKEN
from psxgpu.players.looks import ALONE, BIT_15, COLOURS, EDGES, NOTHING, OTHERS, STEP, may_be_one
from psxgpu.players.named import Done, Player, player_of
from psxgpu.reduce.features import name_of
from psxgpu.stream import GP0, GP1, READ, STAT
from tests import support
from tests.tools import wrong_players as wrong

FLIPPED = packed([(0xE1001000,), (0x65000000, 0, 0, 0x00010004)])
FILL = packed([(0x02FFFFFF, 0, 0x00020010)])
RECTANGLE = packed([(0x60FFFFFF, 0, 0x00020003)])


def kind(name, needs, look=EDGES, words=5):
    return Kind(name, name, look, sorted(needs), [], words)


class Parts(unittest.TestCase):
    def test_facts(self):
        self.assertLessEqual({'x-flip', 'an even U', 'texture', 'U below 0'}, facts_of(FLIPPED))
        self.assertNotIn('y-flip', facts_of(FLIPPED))
        self.assertIn('an earlier packet', facts_of((*FLIPPED, FLIPPED[-1])))

    def test_what_is_overwritten(self):
        """A rectangle on its palette or texels, X modulo 1024, or after a packet that is. Another place is not."""
        def found(place, mode, coord, *before):
            facts = facts_of(packed([(0xE1000000 | mode,), *before, (0x65000000, place, coord, 0x00010010)]))
            return {fact for fact in facts if fact.endswith('overwritten')}
        texels, palette, far = {'its texels are overwritten'}, {'its palette is overwritten'}, 0x40000000
        self.assertEqual(found(0, 8, 0), palette)
        self.assertEqual(found(512, 8, far), texels)
        self.assertEqual(found(600, 8, far), set())
        self.assertEqual(found(36, 0x8F, far | 200), texels)
        self.assertEqual(found(600, 8, far, (0x02000000, 512, 0x00100010)), texels)
        self.assertEqual(found(600, 8, 0, (0xA0000000, 0, 0x00010002, 0)), palette)

    def test_boxes_of_sums(self):
        """The sums of a polyline's Y are -2017, -2040 and -2016: 31, 8 and 32 with eleven bits. X is 710 and 711."""
        line = packed([(0xE52001FE,), (0x58FFFFFF, 0x041F00C9, 0, 0x040800C8, 0, 0x042000C8, 0x55555555)])
        self.assertEqual(boxes_of(line), ([(708, 6, 713, 34)], []))

    def test_what_conditions_have(self):
        self.assertEqual(closed(frozenset(['an even U', 'a tie'])), {'an even U', 'a tie', 'texture'})
        self.assertEqual(closed(frozenset(['blending B-F'])), {'blending B-F', 'semi-transparency'})

    def test_looks_of_one(self):
        self.assertTrue(may_be_one(NOTHING, EDGES) and may_be_one(COLOURS, EDGES) and may_be_one(STEP, COLOURS))
        self.assertTrue(may_be_one(BIT_15, NOTHING))
        self.assertFalse(may_be_one(NOTHING, COLOURS) or may_be_one(STEP, ALONE))

    def test_making(self):
        """Whatever is made has six settings, then packets that draw."""
        maker = Maker(random.Random(1))
        for _ in range(300):
            one = maker.one()
            self.assertEqual([packet[0] >> 24 for packet in one[:6]], list(range(0xE1, 0xE7)))
            self.assertGreater(len(one), 6)
            facts_of(one)
            maker.keep(one)

    def test_telling(self):
        """Of 40 flipped ones, those with an even U differ, wide or not. So an even U tells, and a width does not. A
        fact that few lack tells nothing."""
        seen = [Seen(frozenset(facts), 10, 10 if 'an even U' in facts else 0)
                for facts in ((), ('an even U',), ('width above 1',), ('an even U', 'width above 1'))]
        self.assertEqual(most_telling(seen, ['width above 1', 'an even U']), 'an even U')
        self.assertIsNone(most_telling(seen, ['width above 1']))
        few = [Seen(frozenset(['an even U']), 40, 40), Seen(frozenset(), 7, 0)]
        self.assertIsNone(most_telling(few, ['an even U']))

    def test_samples(self):
        """Of 100 polygons 10 differ at their edges: 9 of the 10 wide ones, and 1 of the 90 others."""
        samples = Samples()
        for k in range(100):
            facts = frozenset(['wider than 1023'] if k < 10 else ['dither'] if k < 50 else [])
            samples.add('polygon', facts, [EDGES] if k < 9 or k == 50 else [])
        again = Samples()
        again.take(samples.as_list())
        for one in (samples, again):
            self.assertEqual(one.count('polygon', EDGES, frozenset()), 10)
            self.assertTrue(one.is_apart('polygon', EDGES, frozenset(), frozenset(['wider than 1023'])))
            self.assertFalse(one.is_apart('polygon', EDGES, frozenset(), frozenset(['dither'])))
        kinds = {'a': kind('polygon', []), 'b': kind('polygon', ['wider than 1023']), 'c': kind('polygon', ['dither'])}
        self.assertEqual(sorted(sorted(cause.keys) for cause in causes(kinds, samples)), [['a', 'c'], ['b']])

    def test_causes(self):
        """A kind that needs more than another one is a case of it; so is the same setting in another packet, or what
        shares a condition. One without a condition explains no other look."""
        kinds = {'a': kind('rectangle', ['x-flip', 'an even U']),
                 'b': kind('rectangle', ['x-flip', 'an even U', 'dither']), 'c': kind('line', ['offset']),
                 'd': kind('polygon', ['offset']), 'e': kind('polygon', []),
                 'f': kind('polygon', ['wider than 1023'], NOTHING), 'g': kind('line', ['a tie', 'to the left']),
                 'h': kind('line', ['a tie', 'steep']), 'i': kind('line', ['several colours'], STEP),
                 'j': kind('polygon', ['several colours'], STEP)}
        found = causes(kinds, Samples())
        self.assertEqual(sorted(sorted(cause.keys) for cause in found),
                         [['a', 'b'], ['c', 'd'], ['e'], ['f'], ['g', 'h'], ['i'], ['j']])
        self.assertIn('line, if a tie: cells at its edges', [cause.sentence for cause in found])
        self.assertIn('line, polygon with a drawing offset: cells at its edges', [cause.sentence for cause in found])

    def test_causes_of_one_packet(self):
        """A texel of another page may be transparent. A kind that was joined to one of another packet still takes cases
        of its own packet. A sequence with a packet at which a player breaks down is a case of it."""
        page = ['page', 'texture']
        kinds = {'a': kind('rectangle', page, COLOURS), 'b': kind('polygon', page, COLOURS),
                 'c': kind('polygon', ['a scaled texture', 'page', 'texture']), 'd': kind('line', ['polyline'], BROKEN),
                 'e': Kind('reads', 'reads', BROKEN, ['E3h', 'line'], ['E3h', 'line']),
                 'f': Kind('reads', 'reads', BROKEN, ['fill'], ['fill']),
                 'g': Kind('reads', 'reads', 'another word', ['fill'], ['fill'])}
        found = causes(kinds, Samples())
        self.assertEqual(sorted(sorted(cause.keys) for cause in found), [['a', 'b', 'c'], ['d', 'e'], ['f'], ['g']])

    def test_causes_in_x_and_y(self):
        """What is the same with X and Y exchanged is one. Opposite looks of two packets are not, nor is a sequence one
        with a packet, unless it has bits that mean nothing."""
        kinds = {'a': kind('fill', ['its box over the bottom']), 'b': kind('fill', ['its box over the right edge']),
                 'c': kind('load', ['tested-mask'], ALONE), 'd': kind('polygon', ['tested-mask'], NOTHING),
                 'e': kind('copy', ['unused-bits'], NOTHING),
                 'f': kind('status', ['copy', 'copy with bits that mean nothing'], 'bit 3'),
                 'g': kind('status', ['copy'], 'bit 3')}
        found = causes({key: kinds[key] for key in 'abcdef'}, Samples())
        self.assertEqual(sorted(sorted(cause.keys) for cause in found), [['a', 'b'], ['c'], ['d'], ['e', 'f']])
        self.assertEqual(len(causes({key: kinds[key] for key in 'eg'}, Samples())), 2)

    def test_causes_of_two_rules(self):
        """An even U may be there by chance in a rectangle that is drawn over its palette."""
        kinds = {'a': kind('rectangle', ['x-flip', 'an even U', 'texture'], COLOURS),
                 'b': kind('rectangle', ['an even U', 'its palette is overwritten', 'texture'], COLOURS),
                 'c': kind('rectangle', ['an even U', 'U below 0', 'x-flip', 'y-flip', 'texture'], COLOURS)}
        found = causes({key: kinds[key] for key in 'ab'}, Samples())
        self.assertEqual([cause.keys for cause in found], [['a'], ['b']])
        self.assertEqual(len(causes({key: kinds[key] for key in 'ac'}, Samples())), 1)

    def test_causes_of_sequences(self):
        """A store and the packet whose cells it reads only show a difference. Ten bits of a corner's Y are a cause of
        their own, also where a packet shows them."""
        corner = 'an area corner with Y above 511'
        kinds = {'a': kind('reads', ['a store', 'fill', 'an odd number of cells']),
                 'b': kind('reads', ['a store', 'load', 'an odd number of cells']),
                 'c': kind('reads', ['a store', 'load', 'size 0']),
                 'd': kind('reads', ['E3h', 'GP1(10h) 2 to 5']), 'e': kind('reads', ['E2h', 'GP1(10h) 2 to 5']),
                 'f': kind('reads', ['E3h', 'GP1(10h) 2 to 5', corner]), 'g': kind('rectangle', [corner], ALONE)}
        found = causes(kinds, Samples())
        self.assertEqual(sorted(sorted(cause.keys) for cause in found), [['a', 'b'], ['c'], ['d', 'e'], ['f', 'g']])

    def test_causes_in_the_status(self):
        """A packet that draws sets bits of the status itself, but only shows what is read. The same bits in an unfinished
        packet and load are one cause; other bits are not, nor is a load that GP1(01h) cuts."""
        load = ['load', 'an unfinished load']
        kinds = {'a': kind('status', ['polygon'], 'bit 9'), 'b': kind('status', ['polygon'], 'bits 10, 15'),
                 'c': kind('reads', ['polygon', 'a store']), 'd': kind('reads', ['polygon', 'GP1(10h) 7']),
                 'e': kind('status', ['an unfinished packet'], 'bit 26'), 'f': kind('status', load, 'bit 26'),
                 'g': kind('status', [*load, 'E6h', 'GP1(01h)'], 'bit 12')}
        found = causes(kinds, Samples())
        self.assertEqual(sorted(sorted(cause.keys) for cause in found), [['a', 'b'], ['c'], ['d'], ['e', 'f'], ['g']])
        kinds['f'] = kind('status', load, 'bit 28')
        self.assertEqual(len(causes({key: kinds[key] for key in 'ef'}, Samples())), 2)

    def test_sequences(self):
        """What is open, unfinished or asked for in a sequence of records."""
        store, read, status = (GP0, 3, (0xC0000000, 0, 0x00010003)), (READ, 2, ()), (STAT, 1, ())
        for records, facts in (
                ([store, read], {'a store', 'an odd number of cells'}), ([store, status], {'an open store'}),
                ([store, read, read], {'a store', 'a read after the words of a store'}),
                ([store, read, (GP1, 1, (0x10000003,)), read], {'a store', 'GP1(10h) 2 to 5'}),
                ([store, read, status], {'a store'}), ([(GP0, 3, (2, 0, 1)), read], {'nop', 'no question before it'}),
                ([(GP0, 3, (0xC0000000, 0, 1)), read], {'a store', 'size 0'}),
                ([(GP0, 1, (0xE4080000,)), (GP1, 1, (0x10000004,)), read],
                 {'E4h', 'GP1(10h) 2 to 5', 'an area corner with Y above 511'}),
                ([(GP0, 4, (0xA0000000, 0, 0x10001, 0)), read], {'load', 'a load and no question before it'}),
                ([store, (GP0, 1, (0xE1000000,)), read], {'an open store', 'E1h'}), ([read], {'no question before it'}),
                ([(GP0, 2, (0x20000000, 0)), status], {'an unfinished packet'}),
                ([(GP1, 1, (0x10000003,)), read], {'GP1(10h) 2 to 5'}),
                ([(GP0, 4, (0x81000000, 0, 0, 1)), status], {'copy', 'copy with bits that mean nothing'}),
                ([(GP1, 1, (0x44000001,)), status], {'GP1 from 40h'})):
            self.assertEqual(sequence_facts(records), facts)

    def test_sections(self):
        """Each decision names a section of docs/MACHINE.md."""
        with open(os.path.join(support.TOP, 'docs', 'MACHINE.md'), encoding='utf-8') as file:
            sections = re.findall('^## (.*)', file.read(), re.M)
        for _, who, section, _ in deciders.RULES:
            self.assertTrue(any(name.startswith(section) for name in sections), section)
            self.assertIn(who, (deciders.SPX, deciders.OWN))

    def test_deciders(self):
        self.assertEqual(deciders.decision('rectangle', ['x-flip', 'texture']).who, deciders.SPX)
        self.assertEqual(deciders.decision('rectangle', ['x-flip', 'an even U']).who, deciders.OWN)
        self.assertEqual(deciders.decision('polygon', ['wider than 1023']).section, 'Where a primitive draws')
        self.assertEqual(of_class('quad shaded textured').section, 'Polygons')
        self.assertEqual([of_random(name).section for name in CLASSES][:3],
                         ['Fills', 'Copies, loads and stores', 'Copies, loads and stores'])


class Same(Player):
    """psxgpu_tool, some modes of which end with an error."""

    def __init__(self, *missing):
        self.own, self.missing = player_of(support.PLAYER), missing

    def run(self, mode, data, seconds=None):
        return Done(1, b'', b'') if mode in self.missing else self.own.run(mode, data, seconds)


@support.needs_player
class Judging(unittest.TestCase):
    def setUp(self):
        self.ours = player_of(support.PLAYER)

    def test_looks(self):
        """The look of a difference, and the next experiment that does not see it."""
        faults = {
            NOTHING: lambda name, words, registers: [0] if name == 'rectangle' else words,
            STEP: lambda name, words, registers: [words[0] - 8, *words[1:]] if name == 'rectangle' else words,
            BIT_15: lambda name, words, registers: (wrong.under(0xE6, 1, words, registers) if name == 'rectangle'
                                                    else words)}
        for look, fault in faults.items():
            verdicts = Bench(self.ours, wrong.Wrong(fault), ground_of(1)).judge([RECTANGLE, FILL, RECTANGLE])
            self.assertEqual([verdict.looks for verdict in verdicts], [{look}, set(), {look}])

    def test_dumps_alone(self):
        """A player that knows `vram` alone is judged by dumps."""
        fault = wrong.Wrong(lambda name, words, registers: [words[0] - 8, *words[1:]] if name == 'rectangle' else words)
        verdicts = DumpBench(self.ours, fault, ground_of(1)).judge([FILL, RECTANGLE])
        self.assertEqual([verdict.looks for verdict in verdicts], [set(), {STEP}])
        self.assertEqual(DumpBench(self.ours, Same('play'), ()).judge([FILL] * 3)[2].looks, set())

    def test_area_of_ten_bits(self):
        """A player that takes ten bits of the last row of the drawing area draws below the box of ours."""
        def fault(name, words, registers):
            return [words[0] | 0x7FC00] if words[0] >> 24 == 0xE4 and words[0] & 0x80000 else words
        below = packed([(0xE40883FF,), (0x60FFFFFF, 100 << 16, 0x00020002)])
        bench = Bench(self.ours, wrong.Wrong(fault), ground_of(1))
        self.assertEqual(bench.judge([below])[0].looks, {ALONE})
        self.assertIn('an area corner with Y above 511', facts_of(below))

    def test_break_down(self):
        line = packed([(0x48FFFFFF, 0, 5, 0x00050005, 0x50005, 0x50000, 0x55555555)])
        bench = Bench(self.ours, wrong.FAULTS['breaks_at_polylines'], ground_of(1))
        self.assertEqual(bench.judge([FILL, line, RECTANGLE])[1], LOST)


@support.needs_player
class Hunting(support.InFolder):
    def hunted(self, fault, first):
        """Hunts with the experiment `first` in the first batch, until a kind is there."""
        store = Store(self.path(fault), 'psxgpu fuzz')
        hunt = Hunt(Bench(player_of(support.PLAYER), wrong.FAULTS[fault], ground_of(1)), store, 1)
        hunt.batch = lambda: iter([first, FILL, RECTANGLE])
        hunt.step()
        hunt.save()
        return store

    def test_window(self):
        """The window's mask Y loses bit 4: the kind names the window, and is small. A second store reads it."""
        sprite = (0x65000000, 0, 0xA000, 0x00200010)
        store = self.hunted('window_without_bit_4', packed([(0xE1000108,), (0xE2000200,), sprite]))
        (key, found), = store.kinds.items()
        self.assertTrue({'window', 'a window mask Y from 16'} & found.rule, found)
        self.assertLessEqual(found.words, 30)
        self.assertEqual(found.decision.who, deciders.SPX)
        again = Store(self.path('window_without_bit_4'), 'psxgpu fuzz')
        self.assertEqual(again.kinds[key], found)
        self.assertEqual(again.counts()[0]['counts']['captures'], 3)

    def test_shares_of_the_time(self):
        """Reductions that have had their share of the time wait, and are made later."""
        store = Store(self.path('waiting'), 'psxgpu fuzz')
        hunt = Hunt(Bench(player_of(support.PLAYER), wrong.FAULTS['sum_for_difference'], ground_of(1)), store, 1)
        quad = (0x2AFFFFFF, 0, 20, 20 << 16, 20 << 16 | 20)
        hunt.batch = lambda: iter([packed([(0xE1000040,), quad])])
        hunt.spent['reducing'] = 1e6
        hunt.step()
        self.assertEqual((store.kinds, hunt.counts['differ']), ({}, 1))
        hunt.spent.clear()
        hunt.step()
        self.assertEqual(len(store.kinds), 1)

    def test_other_bytes(self):
        """A player that writes other bytes at the end of a reduction does not end the hunt."""
        quad = (0x2AFFFFFF, 0, 20, 20 << 16, 20 << 16 | 20)
        with mock.patch('psxgpu.fuzz.reducing.reduced', side_effect=ToolError('other bytes')):
            store = self.hunted('sum_for_difference', packed([(0xE1000040,), quad]))
        self.assertEqual((store.kinds, store.counts()[0]['counts']['not shown alone']), ({}, 1))

    def test_break_down_in_a_sequence(self):
        """A player that ends with a signal at GP1(10h) 4 is a kind, with the capture that shows it."""
        class Ending(Same):
            def run(self, mode, data, seconds=None):
                is_there = (0x10000004).to_bytes(4, 'little') in data
                return Done(-11, b'', b'') if is_there else super().run(mode, data, seconds)
        store = Store(self.path('ending'), 'psxgpu fuzz')
        reading = Reading(Hunt(Bench(player_of(support.PLAYER), Ending(), ground_of(1)), store, 1))
        good, bad = [(READ, 1, ())], [(GP1, 1, (0x10000004,)), (READ, 1, ())]
        reading.judge([good, bad, good, bad])
        (key, found), = store.kinds.items()
        self.assertEqual((found.rule, reading.hunt.seen[key]), ({'GP1(10h) 2 to 5'}, 2))
        self.assertEqual({found.look}, LOST.looks)
        self.assertIn('SIGSEGV', found.lines[0])
        self.assertIn((0x10000004).to_bytes(4, 'little'), self.read('ending/kinds/%s.capture' % key))

    def test_needs(self):
        """Y flip is lost if the rectangle is wider than 16: it needs this, and neither dither nor a place."""
        sprite = packed([(0xE1002208,), (0x64808080, 0x00100020, 0, 0x00040020)])
        bench = Bench(player_of(support.PLAYER), wrong.FAULTS['wide_unflipped'], ground_of(1))
        near = Nearby(bench, Maker(random.Random(1)), sprite, COLOURS)
        self.assertEqual(near.rule(), {'texture', 'y-flip', 'width above 16'})

    def test_load_without_its_end(self):
        """A load of width 0 has 512 data words. The players differ after the first ones: no more are kept."""
        def fault(name, words, registers):
            return [*words[:2], words[2] | 1, *words[3:4]] if name == 'load' and not words[2] & 0x3FF else words
        bench = Bench(player_of(support.PLAYER), wrong.Wrong(fault), ground_of(1))
        load = packed([(0xA0000000, 0, 0x00010000, *range(1, 513))])
        found, _, small = reduce_kind(bench, load, OTHERS, frozenset(['size 0']))
        self.assertLessEqual(found.words, 10)
        self.assertEqual(small[-1][0], 0xA0000000)

    def test_blending(self):
        quad = (0x2AFFFFFF, 0, 20, 20 << 16, 20 << 16 | 20)
        store = self.hunted('sum_for_difference', packed([(0xE1000040,), quad]))
        (found,) = store.kinds.values()
        self.assertEqual((found.name, found.label), ('polygon', 'quad'))
        self.assertLessEqual(found.words, 8)


@support.needs_player
class Asked(support.InFolder):
    """Kinds of one cause, by what the players do."""
    SPRITE = 0x64808080, 0x00100020, 0x40000000, 0x00040020       # 32 cells wide; its palette is in row 256

    def asking(self, fault, **experiments):
        """Returns what is asked of kinds whose packets and facts are given."""
        store = Store(self.path('kinds'), 'psxgpu fuzz')
        for key, (packets, needs) in experiments.items():
            words = [word for packet in packets for word in packet]
            name = name_of(packets[-1])
            capture = Content(store.path('kinds/%s.capture' % key), Capture(1).gp0(words).bytes())
            store.put(key, Kind(name, name, COLOURS, sorted(needs), []), [capture])
        return Asking(Bench(player_of(support.PLAYER), fault, ground_of(1)), store)

    def test_a_case(self):
        """The Y flip of wide rectangles is lost. A second kind has another reason in its text, and the same cause: one
        row has nothing to flip."""
        flipped = [(0xE1002008,), (0xE407FFFF,), self.SPRITE]
        asking = self.asking(wrong.FAULTS['wide_unflipped'], a=(flipped, ['texture', 'y-flip', 'width above 16']),
                             b=(flipped, ['texture', 'height above 1']))
        asking.ask()
        self.assertEqual(asking.store.kinds['b'].same, ['a'])
        again = Store(self.path('kinds'), 'psxgpu fuzz').kinds
        self.assertEqual([cause.keys for cause in causes(again, Samples())], [['b', 'a']])

    def test_reads_of_what_is_drawn(self):
        """Fills of 257 rows lose 256 of them. A sequence that reads the cells shows the same; one that reads a store of
        an odd number of cells does not."""
        asking = self.asking(wrong.FAULTS['low_fills'], a=([(0x02123456, 0, 0x01010010)], ['height above 255']))
        asking.store.kinds['a'].look = OTHERS
        for key, fill in (('b', (0x02123456, 0, 0x01000010)), ('c', (0x02123456, 0, 0x00010010))):
            capture = Capture(1).gp0(fill).gp0([0xC0000000, 0, 0x00010001]).read(1).bytes()
            asking.store.put(key, Kind('reads', 'reads', 'another word', ['a store', 'fill'], []),
                             [Content(asking.store.path('kinds/%s.capture' % key), capture)])
        asking.ask()
        self.assertEqual([kind.same for kind in asking.store.kinds.values()], [[], ['a'], []])

    def test_what_another_fact_implies(self):
        """A player draws no line longer than a cell. One that is cut on the left is always longer."""
        shorter = wrong.Wrong(lambda name, words, registers: [0] if name == 'line' and words[1] != words[2] else words)
        line = [(0xE407FFFF,), (0x40123456, 0x7FF, 0)]
        asking = self.asking(shorter, a=([(0xE407FFFF,), (0x40123456, 0, 8)], ['longer than a cell']),
                             b=(line, ['cut on the left']))
        for kind in asking.store.kinds.values():
            kind.look = NOTHING
        asking.ask()
        self.assertEqual(asking.store.kinds['b'].same, ['a'])

    def test_bits_of_a_register(self):
        """The window loses bit 4 of its mask Y: what a read returns and what is drawn are one."""
        sprite = [(0xE1000108,), (0xE2000200,), (0xE407FFFF,), (0x65000000, 0, 0xA000, 0x00200010)]
        asking = self.asking(wrong.FAULTS['window_without_bit_4'], a=(sprite, ['texture', 'window']))
        capture = Capture(1).gp0([0xE2000200]).gp1(0x10000002).read(1).bytes()
        asking.store.put('b', Kind('reads', 'reads', 'another word', ['E2h', 'GP1(10h) 2 to 5'], []),
                         [Content(asking.store.path('kinds/b.capture'), capture)])
        asking.ask()
        self.assertEqual([kind.same for kind in asking.store.kinds.values()], [['b'], []])
        (found,) = causes(asking.store.kinds, Samples())
        self.assertEqual((found.key, found.labels), ('a', ['rectangle', 'reads']))

    LINE = [(0xE1000200,), (0xE407FFFF,), (0x40123456, 0, 0x00000008)]
    TRIANGLE = [(0xE1000200,), (0xE407FFFF,), (0x30123456, 0, 0x00123456, 0x00000010, 0x00123456, 0x00100000)]
    QUAD = [(0xE1000200,), (0xE407FFFF,), (0x2C808080, 0, 0x40000000, 0x10, 0x01080010, 0x100000, 0x1000, 0x100010,
                                           0x1010)]

    def test_one_setting_in_two_packets(self):
        """Without any dither, shaded triangles and lines are one kind: shades are what dither needs in a triangle."""
        undithered = wrong.Wrong(lambda name, words, registers: (
            [words[0] & ~0x200] if words[0] >> 24 == 0xE1 else words))
        asking = self.asking(undithered, a=(self.LINE, ['dither']), b=(self.TRIANGLE, ['dither', 'shades']))
        asking.ask()
        self.assertEqual([kind.same for kind in asking.store.kinds.values()], [[], ['a']])

    def test_one_setting_and_two_faults(self):
        """Lines without dither, and textured quads without dither, are two kinds: textured triangles have dither."""
        def lines(name, words, registers):
            return wrong.under(0xE1, registers[0xE1] & ~0x200, words, registers) if name == 'line' else words
        both = wrong.Several(wrong.FAULTS['quads_undithered'], wrong.Wrong(lines))
        asking = self.asking(both, a=(self.LINE, ['dither']), b=(self.QUAD, ['dither', 'factor', 'quad', 'texture']))
        asking.ask()
        self.assertTrue(asking.near['b'])
        self.assertEqual([kind.same for kind in asking.store.kinds.values()], [[], []])

    def test_two_faults_in_one_packet(self):
        """A second fault, of palettes, in a capture that has all that the first one needs, is no case of it."""
        both = wrong.Several(wrong.FAULTS['wide_unflipped'], wrong.FAULTS['palette_row'])
        packets = [(0xE1002008,), (0xE407FFFF,), self.SPRITE]
        asking = self.asking(both, a=(packets, ['texture', 'y-flip', 'width above 16']),
                             b=(packets, ['texture', 'depth', 'a palette from row 256']))
        asking.ask()
        self.assertTrue(asking.near['b'])
        self.assertEqual([kind.same for kind in asking.store.kinds.values()], [[], []])


@support.needs_player
class Commands(support.InFolder):
    def fuzz(self, *words):
        return support.run_tool('fuzz', *words)

    def test_a_run_and_its_folder(self):
        """A run, a second one that continues, the table, two folders as one, and folders that are not ours."""
        folder, theirs = self.path('found'), 'python3 %s' % os.path.join(support.TOP, 'examples', 'no_dither.py')
        words = ['--ours', support.PLAYER, '--jobs', '1', '--captures', '48', '--no-suite', '-o', folder]
        done = self.fuzz(theirs, *words)
        self.assertEqual(done.returncode, 1, done.stderr)
        self.assertLessEqual({'index.html', 'kinds.txt', 'kinds'}, set(os.listdir(folder)))
        count = int(re.match(r'(\d+) kind', done.stdout)[1])
        again = self.fuzz(theirs, *words, '--seed', '2')
        self.assertGreaterEqual(int(re.match(r'(\d+) kind', again.stdout)[1]), count)
        self.assertEqual(self.fuzz('--table', folder).stdout, again.stdout)
        joined = self.fuzz('--join', folder, folder, '-o', self.path('joined'))
        self.assertEqual(joined.returncode, 1, joined.stderr)
        self.assertEqual(joined.stdout.split(' ')[0], again.stdout.split(' ')[0])
        often = [[int(line.split()[0]) for line in done.stdout.splitlines()[1::3]] for done in (again, joined)]
        self.assertEqual(often[1], [2 * count for count in often[0]])
        self.assertIn('not a folder of psxgpu fuzz', self.fuzz('--table', self.folder).stderr)

    def test_nothing_differs(self):
        words = ['--ours', support.PLAYER, '--jobs', '1', '--captures', '48', '--no-suite']
        done = self.fuzz(support.PLAYER, *words, '-o', self.path('found'))
        self.assertEqual((done.returncode, done.stdout[:8]), (0, '0 kinds:'), done.stderr)

    def test_trouble(self):
        self.write('mine.txt', 'a file of a user')
        for words, reason in (([], 'name a player and a folder'),
                              ([support.PLAYER, '-o', self.folder], 'did not write'),
                              (['false', '-o', self.path('new')], 'no dump')):
            done = self.fuzz('--ours', support.PLAYER, *words)
            self.assertEqual(done.returncode, 2)
            self.assertIn(reason, done.stderr)
        self.assertEqual(self.read('mine.txt'), b'a file of a user')


