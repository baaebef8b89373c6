"""Wrong players: psxgpu_tool, before which a function of ours rewrites the packets or control words of a capture.

A fault is a function of a packet's name, its words and the registers E1h to E6h before it. It returns the words that
are played instead. Settings that it changes are set back."""
import io
import itertools

from psxgpu.packets.grammar import COPY, FILL, LINE, LOAD, POLYGON, POLYLINE, QUAD, RECTANGLE, SEMI, SHADED, TEXTURED
from psxgpu.packets.grammar import cells_of, data_words, ends_polyline, name_and_length
from psxgpu.packets.split import Splitter
from psxgpu.players.named import Done, Player, player_of
from psxgpu.stream import GP0, GP1, Stream, encode
from tests import support

MODE, WINDOW, OFFSET, MASK = 0xE1, 0xE2, 0xE5, 0xE6


def packets_of(words, start=0):
    """Yields the packets in the words of a record, loads and polylines whole; at the end what is not whole."""
    at = start
    while at < len(words):
        name, count = name_and_length(words[at])
        end = at + count
        if name == LOAD and end <= len(words):
            end += data_words(words[at + 2])
        if name == LINE and words[at] >> 24 & POLYLINE:
            while end < len(words) and not ends_polyline(words[end]):
                end += 1
            end += 1
        yield list(words[at:end])
        at = end


class Wrong(Player):
    """psxgpu_tool with one fault in packets (`packet`) or in control words (`control`)."""

    def __init__(self, packet=None, control=None, text='wrong'):
        self.packet, self.control, self.text = packet, control, text
        self.own = player_of(support.PLAYER)

    def rewritten(self, data):
        """Returns the capture with other packets. Neighbouring records for GP0 become one."""
        out, splitter = [data[:8]], Splitter()
        for is_gp0, records in itertools.groupby(Stream(io.BytesIO(data), 'capture'), lambda record: record[0] == GP0):
            if is_gp0:
                words = self.record([word for _, _, words in records for word in words], splitter)
                out.append(encode(GP0, len(words), words))
                continue
            for kind, count, words in records:
                if kind == GP1:
                    splitter.control(words[0])
                    words = [self.control(words[0])] if self.control else words
                out.append(encode(kind, count, words))
        return b''.join(out) + bytes(4)

    def record(self, words, splitter):
        """Rewrites the words of a record. Those of a packet that began before it stay."""
        start = splitter.pixels
        if not self.packet or not (splitter.is_idle() or start):
            list(splitter.push(words))
            return words
        out = words[:start]
        list(splitter.push(words[:start]))
        for packet in packets_of(words, start):
            before, (name, wanted) = dict(splitter.registers), name_and_length(packet[0])
            list(splitter.push(packet))
            is_whole = len(packet) >= wanted
            out += self.packet(name, packet, before) if is_whole else packet
        return out

    def run(self, mode, data, seconds=None):
        return self.own.run(mode, self.rewritten(data), seconds)


class Several(Wrong):
    """psxgpu_tool with the faults of several wrong players."""

    def __init__(self, *players):
        super().__init__(text=', '.join(player.text for player in players))
        self.players = players

    def rewritten(self, data):
        for player in self.players:
            data = player.rewritten(data)
        return data


class Breaking(Wrong):
    """Ends with a signal at a packet for which `packet` returns None."""

    def run(self, mode, data, seconds=None):
        try:
            return super().run(mode, data, seconds)
        except TypeError:
            return Done(-11, b'', b'')


def under(register, value, words, registers):
    """Returns words under another value of a register, which is then set back."""
    return [register << 24 | value, *words, register << 24 | registers[register]]


def is_textured(name, words):
    """Returns whether a packet has a texture."""
    return name in (POLYGON, RECTANGLE) and bool(words[0] >> 24 & TEXTURED)


def with_page(name, words, registers, change):
    """Returns a textured packet with another page and mode: change(E1h) returns it."""
    if name == RECTANGLE:
        return under(MODE, change(registers[MODE]), words, registers)
    at = 5 if words[0] >> 24 & SHADED else 4
    page = change(words[at] >> 16 & 0x1FF)
    wrong = [*words[:at], page << 16 | words[at] & 0xFFFF, *words[at + 1:]]
    return [*wrong, MODE << 24 | registers[MODE] & ~0x1FF | words[at] >> 16 & 0x1FF]


def column_8(name, words, registers):
    """Takes page column 8 for each page."""
    return with_page(name, words, registers, lambda mode: mode & ~15 | 8) if is_textured(name, words) else words


def window_without_bit_4(name, words, registers):
    """Drops bit 4 of the window's mask Y."""
    return [words[0] & ~0x200] if words[0] >> 24 == WINDOW else words


def one_colour_lines(name, words, registers):
    """Draws lines of two colours in the first one."""
    is_shaded = name == LINE and words[0] >> 24 & (SHADED | POLYLINE) == SHADED
    return [words[0], words[1], words[0] & 0xFFFFFF, words[3]] if is_shaded else words


def sum_for_difference(name, words, registers):
    """Blends semi-transparent quads by B+F instead of B-F."""
    if name != POLYGON or words[0] >> 24 & (QUAD | SEMI) != QUAD | SEMI:
        return words

    def change(mode):
        return mode & ~0x60 | 0x20 if mode >> 5 & 3 == 2 else mode
    if is_textured(name, words):
        return with_page(name, words, registers, change)
    return under(MODE, change(registers[MODE]), words, registers)


def odd_copies_unforced(name, words, registers):
    """Does not force bit 15 in copies of odd width."""
    return under(MASK, registers[MASK] & 2, words, registers) if name == COPY and words[3] & 1 else words


def wide_unflipped(name, words, registers):
    """Loses the Y flip of rectangles wider than 16."""
    is_wide = is_textured(name, words) and name == RECTANGLE and not words[0] >> 27 & 3 and words[3] & 0x3FF > 16
    return under(MODE, registers[MODE] & ~0x2000, words, registers) if is_wide else words


def quads_undithered(name, words, registers):
    """Draws textured quads without dither."""
    if name != POLYGON or not is_textured(name, words) or not words[0] >> 24 & QUAD:
        return words
    at = 5 if words[0] >> 24 & SHADED else 4
    mode = registers[MODE] & ~0x1FF | words[at] >> 16 & 0x1FF
    return [MODE << 24 | registers[MODE] & ~0x200, *words, MODE << 24 | mode]


def low_fills(name, words, registers):
    """Drops bit 8 of the height of fills."""
    return [words[0], words[1], words[2] & ~0x1000000] if name == FILL else words


def offset_without_sign(name, words, registers):
    """Drops the sign of the drawing offset's Y."""
    return [words[0] & ~0x200000] if words[0] >> 24 == OFFSET else words


def narrow_untested(name, words, registers):
    """Does not test the mask in whole loads one cell wide."""
    is_narrow = name == LOAD and cells_of(words[2])[0] == 1 and len(words) == 3 + data_words(words[2])
    return under(MASK, registers[MASK] & 1, words, registers) if is_narrow else words


def palette_row(name, words, registers):
    """Drops bit 8 of the palette's row for rectangles."""
    return [*words[:2], words[2] & ~0x40000000, *words[3:]] if is_textured(name, words) and name == RECTANGLE else words


def fourth_colour(name, words, registers):
    """Gives the fourth vertex of shaded quads the third colour."""
    opcode = words[0] >> 24
    if name != POLYGON or opcode & (QUAD | SHADED) != QUAD | SHADED:
        return words
    step = 3 if opcode & TEXTURED else 2
    return [*words[:3 * step], words[2 * step], *words[3 * step + 1:]]


def info_4_as_3(word):
    """Takes GP1(10h) 4 for 3."""
    return word - 1 if word >> 24 & 0x3F in range(0x10, 0x20) and word & 7 == 4 else word


def breaks_at_polylines(name, words, registers):
    """Breaks down at a polyline of more than three vertices."""
    return None if name == LINE and words[0] >> 24 & (POLYLINE | SHADED) == POLYLINE and len(words) > 5 else words


FAULTS = {one.__name__: Wrong(one, text=one.__doc__.strip()) for one in (
    sum_for_difference, odd_copies_unforced, window_without_bit_4, wide_unflipped, quads_undithered, low_fills,
    offset_without_sign, narrow_untested, palette_row, fourth_colour, column_8)} if support.PLAYER else {}
if support.PLAYER:
    FAULTS['info_4_as_3'] = Wrong(control=info_4_as_3, text=info_4_as_3.__doc__)
    FAULTS['breaks_at_polylines'] = Breaking(breaks_at_polylines, text=breaks_at_polylines.__doc__)
