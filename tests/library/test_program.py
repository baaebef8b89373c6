"""The module against the program, over all examples"""
import os
import sys
import unittest

from psxgpu.players.named import LibraryPlayer, player_of
from tests.library import support as program
import psxgpu
from psxgpu.capture import BEGIN, DMA, GP0, GP1, RAM, READ, SKIP, STAT, TURN, records
from psxgpu.packets.control import class_name

setUpModule = program.needs_library

COMMANDS = [mode for mode in psxgpu.MODES if mode != 'pixel'] + ['pixel 20 30', 'pixel 1023 511']


def library_plays(command, data):
    """What program.play gives, by the library."""
    words = command.split()
    try:
        if words[0] == 'pixel':
            return 0, psxgpu.play(data, 'pixel', cell=(int(words[1]), int(words[2]))), ''
        return 0, psxgpu.play(data, command), ''
    except psxgpu.Refused as bad:
        return 2, bad.output, str(bad)


def plays(command):
    """Whether program and library know this command."""
    return program.knows(command) and 'no such mode' not in library_plays(command, b'')[2]


def play_record(machine, kind, count, words):
    """Plays a record call by call; answers the words that were read."""
    if kind == RAM:
        machine.ram(words[0], words[1:])
    elif kind == GP0:
        machine.gp0(words)
    elif kind == GP1:
        machine.gp1(*words)
    elif kind == DMA:
        machine.dma(count, *words)
    elif kind == BEGIN:
        machine.begin(*words)
    elif kind in (TURN, SKIP):
        for _ in range(count):
            {TURN: machine.turn, SKIP: machine.skip}[kind]()
    return [{READ: machine.read, STAT: machine.status}[kind]() for _ in range(count if kind in (READ, STAT) else 0)]


def first_events(parts, most):
    """The records of the first events."""
    for kind, count, words in parts:
        events = count if kind in (RAM, GP0, READ, TURN, SKIP) else 1
        if most <= 0:
            return
        if events > most:
            count, words = most, words[:most + (kind == RAM)]
        most -= events
        yield kind, count, words


def play_events(machine, data, most=sys.maxsize):
    """Plays the first events of a capture; answers the lines that `play` shows for them."""
    version, parts = records(data)
    if version == 3:
        machine.set_tall()
    return ['%08x' % word for record in first_events(parts, most) for word in play_record(machine, *record)]


def in_rgba(ppm):
    """The pixels of a PPM with an alpha."""
    width, height = map(int, ppm.split(None, 3)[1:3])
    pixels = ppm[-3 * width * height:]
    return b''.join(pixels[k:k + 3] + b'\xff' for k in range(0, len(pixels), 3))


def line_of(note):
    """A note as `list` writes it."""
    area = ' '.join(map(str, note.area)) if note.area else '-'
    return '%d %s %08x %s' % (note.event, class_name(note.class_number, note.head), note.head, area)


def noted(machine, data):
    """The lines of the notes of a flat capture's words."""
    version, parts = records(data)
    if version == 3:
        machine.set_tall()
    lines = []
    for kind, count, words in parts:
        if kind == GP0:
            lines += map(line_of, machine.gp0_notes(words))
        else:
            play_record(machine, kind, count, words)
    return lines


@program.needs_player
class AgainstTheProgram(unittest.TestCase):
    def test_play_in_every_mode(self):
        """Whole captures, and what is cut off or goes wrong: output, and the words of the refusal."""
        commands = [command for command in COMMANDS if plays(command)]
        self.assertGreaterEqual(len(commands), 4)
        for path in program.EXAMPLES:
            data = program.bytes_at(path)
            for part in (data, data[:len(data) // 2], data[:7], data[:8] + b'\1\0\0\x0c'):
                for command in commands:
                    with self.subTest(path=os.path.basename(path), command=command, length=len(part)):
                        self.assertEqual(library_plays(command, part), program.play(command, part))

    def test_event_by_event(self):
        for path in program.EXAMPLES:
            with self.subTest(path=os.path.basename(path)), psxgpu.Machine() as machine:
                data = program.bytes_at(path)
                status, told, error = program.play('play', data)
                try:
                    lines = play_events(machine, data)
                except psxgpu.Refused as bad:
                    self.assertEqual((2, str(bad)), (status, error))
                    continue
                lines.append('status %08x' % machine.status())
                self.assertEqual(lines, told.decode().splitlines())
                self.assertEqual(machine.vram(), program.play('vram', data)[1])
                status, picture, _ = program.play('shot', data)
                if status:
                    self.assertRaises(psxgpu.Refused, machine.picture)
                else:
                    self.assertEqual(machine.picture(), picture)
                    self.assertEqual(machine.picture_rgba(), in_rgba(picture))

    def test_notes(self):
        """The notes of a capture's words are the lines of `list`, and the machine is the same."""
        for path in program.EXAMPLES:
            status, flat, _ = program.play('flat', program.bytes_at(path))
            if status:
                continue
            with self.subTest(path=os.path.basename(path)), psxgpu.Machine() as machine:
                self.assertEqual(noted(machine, flat), program.play('list', flat)[1].decode().splitlines())
                self.assertEqual(machine.vram(), program.play('vram', flat)[1])

    def test_snapshots(self):
        """After the first events a machine's snapshot is the state of the program's file, and a machine that loads the
        file goes on as the program does."""
        for path in program.EXAMPLES:
            data = program.bytes_at(path)
            for count in (1, 2, 3, 5, 8, 13, 20):
                status, cut, _ = program.play('cut %d' % count, data)
                if status:
                    continue
                with self.subTest(path=os.path.basename(path), count=count), psxgpu.Machine() as machine:
                    play_events(machine, data, count)
                    found = machine.save()
                    self.assertEqual((found, found.events), (cut[:len(found) - 4] + bytes(4), count))
                    machine.clear()
                    machine.load(cut)
                    self.assertEqual(machine.save(), found)
                    self.assertEqual(library_plays('vram', cut), program.play('vram', cut))

    def test_tools_play_in_their_process(self):
        path = program.EXAMPLES[0]
        player = player_of('psxgpu_tool vram')
        self.assertIsInstance(player, LibraryPlayer)
        for command in ('other vram', 'another/psxgpu_tool vram', 'psxgpu_tool flat', 'psxgpu_tool vram | cat'):
            self.assertNotIsInstance(player_of(command), LibraryPlayer)
        done = player.run('vram', program.bytes_at(path))
        self.assertEqual(done, (0, program.play('vram', program.bytes_at(path))[1], b''))
