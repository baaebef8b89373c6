"""The library's own refusals, by its raw calls, as a program in C could make them: python3
tests/library/test_refusals.py"""
import ctypes
import unittest

from psxgpu.machine import Machine
from psxgpu.machine.library import SIZE, WORD, Ended, Handle, RawNote, library
from psxgpu.capture import Capture, fill, screen
from tests.library.support import needs_library

setUpModule = needs_library

NO_ROOM, CLOSED, OPEN, BAD_MODE, NO_CELL, BAD_ADDRESS, BAD_CHANNEL = 11, 14, 15, 16, 17, 18, 19
MARK = 0x5A
WORDS = (ctypes.c_uint32 * 4)(0xE1000001, 0xE1000002, 0xE1000003, 0xE1000004)
NOTES = (RawNote * 4)()


class Room:
    """Bytes that are lent, between bytes that are not; all hold a mark."""

    def __init__(self, size):
        self.size, self.bytes = size, ctypes.create_string_buffer(bytes([MARK]) * (size + 32))

    @property
    def at(self):
        return ctypes.addressof(self.bytes) + 16

    def held(self):
        return self.bytes.raw[16:16 + self.size]

    def is_kept(self, written=0):
        """Whether nothing was written but the first bytes."""
        marks = bytes([MARK])
        raw = self.bytes.raw[:-1]
        return raw[:16] == 16 * marks and raw[16 + written:] == (self.size - written + 16) * marks


class Refusals(unittest.TestCase):
    def setUp(self):
        self.library, self.gpu = library(), Handle()
        self.assertEqual(self.library.new(self.gpu), 0)
        self.addCleanup(self.library.free, self.gpu)
        for word in screen(0, 0, 320, 240):
            self.library.gp1(self.gpu, word)
        self.library.gp0_words(self.gpu, (ctypes.c_uint32 * 3)(*fill(0x0000FF, 0, 0, 64, 64)), 3)
        self.before = self.state()

    def state(self):
        room, written = Room(Machine.SAVE_ROOM), SIZE()
        self.assertEqual(self.library.save(self.gpu, room.at, room.size, written), 0)
        self.assertTrue(room.is_kept(written.value))
        return room.held()[:written.value]

    def tearDown(self):
        """No refused call has changed the machine."""
        self.assertEqual(self.state(), self.before)

    def test_closed(self):
        closed, room, written, ended = Handle(), Room(64), SIZE(7), Ended()
        word, half = WORD(MARK), ctypes.c_uint16(MARK)
        calls = (('clear',), ('set_tall',), ('gp0', 0), ('gp0_words', WORDS, 4), ('gp1', 0), ('read', word),
                 ('status', word), ('skip',), ('ram', 0, WORDS, 4), ('dma', 2, 0, 0, 0, ended),
                 ('begin', 0, 0, 0, ended), ('turn',), ('vram', room.at, 64, written), ('cell', 0, 0, half),
                 ('shape', half, half), ('picture', room.at, 64, written), ('picture_rgba', room.at, 64, written),
                 ('gp0_notes', WORDS, 4, NOTES, 4, written), ('registers', room.at, 13),
                 ('save', room.at, 64, written), ('load', self.before, len(self.before), ended))
        for name, *arguments in calls:
            with self.subTest(call=name):
                written.value, ended.code = 7, 0
                self.assertEqual(getattr(self.library, name)(closed, *arguments), CLOSED)
                self.assertTrue(room.is_kept())
                self.assertEqual((word.value, half.value), (MARK, MARK))
                if written in arguments:
                    self.assertEqual(written.value, 0)
                if ended in arguments:
                    self.assertEqual((ended.code, ended.written), (CLOSED, 0))
        self.library.free(closed)

    def test_open(self):
        self.assertEqual(self.library.new(self.gpu), OPEN)

    def test_rooms(self):
        """One byte less than the output is too little. Exactly its length is enough, and no byte after it is written."""
        dues = {'vram': 1048576, 'picture': len('P6\n320 240\n255\n') + 3 * 320 * 240,
                'picture_rgba': 4 * 320 * 240, 'save': len(self.before)}
        for name, due in dues.items():
            call, written = getattr(self.library, name), SIZE(7)
            for short in (0, 1, due - 1):
                with self.subTest(call=name, room=short):
                    room = Room(short)
                    self.assertEqual((call(self.gpu, room.at, short, written), written.value), (NO_ROOM, 0))
                    self.assertTrue(room.is_kept())
            room = Room(due)
            self.assertEqual((call(self.gpu, room.at, due, written), written.value), (0, due))
            self.assertTrue(room.is_kept(due))

    def test_registers_room(self):
        room = Room(4 * 13)
        self.assertEqual(self.library.registers(self.gpu, room.at, 12), NO_ROOM)
        self.assertTrue(room.is_kept())

    def test_notes_room(self):
        """There is to be room for a note of each word; with less no word is taken."""
        for room in (0, 1, 3):
            notes, written = (RawNote * 4)(), SIZE(7)
            ctypes.memset(notes, MARK, ctypes.sizeof(notes))
            self.assertEqual(self.library.gp0_notes(self.gpu, WORDS, 4, notes, room, written), NO_ROOM)
            self.assertEqual((written.value, set(bytes(notes))), (0, {MARK}))

    def test_notes_behind(self):
        """No note is written but those that are told."""
        other = Machine()
        notes, written = (RawNote * 4)(), SIZE(7)
        ctypes.memset(notes, MARK, ctypes.sizeof(notes))
        words = (ctypes.c_uint32 * 4)(*fill(0x0000FF, 0, 0, 16, 16), 0xE1000000)
        self.assertEqual(self.library.gp0_notes(other._handle, words, 4, notes, 4, written), 0)
        self.assertEqual([(it.event, it.word, it.class_number) for it in notes[:2]], [(3, 2, 0), (4, 3, 7)])
        self.assertEqual((written.value, set(bytes(notes)[2 * ctypes.sizeof(RawNote):])), (2, {MARK}))

    def test_cells(self):
        for x, y in ((1024, 0), (0, 512), (0xFFFFFFFF, 0), (0, 0xFFFFFFFF)):
            cell = ctypes.c_uint16(MARK)
            self.assertEqual((self.library.cell(self.gpu, x, y, cell), cell.value), (NO_CELL, MARK))

    def test_addresses(self):
        for start in (1, 2, 0x1FFFF4, 0x200000, 0xFFFFFFFC):
            self.assertEqual(self.library.ram(self.gpu, start, WORDS, 4), BAD_ADDRESS, hex(start))

    def test_channels(self):
        for channel in (0, 3, 7, 0xFFFFFFFF):
            ended = Ended()
            self.assertEqual(self.library.dma(self.gpu, channel, 0, 0, 0, ended), BAD_CHANNEL)
            self.assertEqual(ended.code, BAD_CHANNEL)

    def test_play(self):
        capture, ended = Capture().stat(3).bytes(), Ended()
        room = Room(64)
        self.assertEqual(self.library.play(99, 0, capture, len(capture), room.at, 64, ended), BAD_MODE)
        self.assertTrue(room.is_kept())
        # Three lines of nine bytes are due, and the status line.
        whole = b'14802000\n' * 3 + b'status 14802000\n'
        for size in (0, 5, 9, 30, len(whole) - 1):
            room = Room(size)
            self.assertEqual(self.library.play(0, 0, capture, len(capture), room.at, size, ended), NO_ROOM)
            self.assertEqual((ended.code, ended.written, room.held()), (NO_ROOM, size, whole[:size]))
            self.assertTrue(room.is_kept(size))
        room = Room(len(whole))
        self.assertEqual(self.library.play(0, 0, capture, len(capture), room.at, len(whole), ended), 0)
        self.assertEqual(room.held(), whole)
