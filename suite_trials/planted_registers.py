"""Planted faults: textures, registers, words, the picture, DMA."""
from __future__ import annotations

from collections.abc import Callable

from suite_trials.model import Machine
from suite_trials.planted import M, fault


def status_bits(set_bits: Callable[[Machine], int], clear: int) -> Callable[[Machine], int]:
    """A status word with other values of some bits."""
    return lambda m: M.status(m) & ~clear | set_bits(m)


def late_idle(m: Machine) -> bool:
    """Bit 26 falls one word too late."""
    return len(m.words) < 2 and m.loading is None and m.joint is None


def turned(mask_u: int, mask_v: int, offset_u: int, offset_v: int) -> tuple[int, int, int, int]:
    return mask_v, mask_u, offset_v, offset_u


def reset_of_the_transfer(m: Machine) -> None:
    """A reset ends the running transfer, too."""
    M.reset(m)
    m.run = None


def twice(m: Machine, y: int, width: int) -> bytes:
    """A row of a doubled picture, in which each row of video memory is shown twice."""
    top = m.start >> 10
    return M.shown_row(m, top + (y - top) // 2 if m.is_doubled() else y, width)


def reset_to_short(m: Machine, word: int) -> None:
    """A reset ends the tall profile, too."""
    M.gp1(m, word)
    if m.gp1_opcode(word) == 0:
        m.rows = 512


# Textures.
fault('a texel of 0000h is drawn', 'textures', is_drawn=lambda m, texel: True)
fault('a texel of 8000h is not drawn', 'textures blending', is_drawn=lambda m, texel: texel & 0x7FFF != 0)
fault('indexes of 4 bits come from the high end', 'textures',
      index=lambda m, v, u, d: M.index(m, v, u if d else u ^ 3, d))
fault('indexes of 8 bits come from the high end', 'textures',
      index=lambda m, v, u, d: M.index(m, v, u ^ 1 if d else u, d))
fault('a palette\'s row is one lower', 'textures',
      palette_place=lambda m, c: (M.palette_place(m, c)[0], M.palette_place(m, c)[1] + 1))
fault('a palette has eight bits of Y', 'textures',
      palette_place=lambda m, c: (M.palette_place(m, c)[0], M.palette_place(m, c)[1] & 255))
fault('a palette does not wrap', 'textures', palette_entry=lambda m, c, i: 0 if m.palette_place(c)[0] + i > 1023
      else M.palette_entry(m, c, i))
fault('a page does not wrap', 'textures', texel_cell=lambda m, x, y: 0 if x > 1023 else m.get(x, y))
fault('a page of 8 bits does not wrap', 'textures',
      texel_cell=lambda m, x, y: 0 if x > 1023 and m.e1 >> 7 & 3 == 1 else m.get(x, y))
fault('the page\'s Y bit is not looked at', 'textures', page_place=lambda m: (M.page_place(m)[0], 0))
fault('the window\'s offset is not masked', 'windows', windowed=lambda m, at, k, o: at & ~(8 * k) | 8 * o)
fault('the window\'s offset is added', 'windows', windowed=lambda m, at, k, o: (at & ~(8 * k)) + 8 * (o & k) + (o & 1))
fault('the window\'s U and V are exchanged', 'windows',
      window_fields=lambda m: turned(*M.window_fields(m)))
# Registers, words, the picture.
fault('bit 26 falls one word late', 'status', is_idle=late_idle)
fault('bit 26 does not look at a load', 'status', is_idle=lambda m: not m.words and m.joint is None)
fault('bit 27 stays 0', 'status', status=status_bits(lambda m: 0, 1 << 27))
fault('bits 17 and 18 are exchanged', 'status',
      status=status_bits(lambda m: (m.mode & 1) << 18 | (m.mode >> 1 & 1) << 17, 3 << 17))
fault('bit 25 stays 0', 'status', status=status_bits(lambda m: 0, 1 << 25))
fault('GP1 opcodes have eight bits', 'opcodes', gp1_opcode=lambda m, word: word >> 24)
fault('GP1(01h) does nothing', 'cuts', cut=lambda m: None)
fault('GP1(01h) resets', 'cuts', cut=lambda m: (m.start_clean(), m.reset()))
fault('02h has two words', 'fills', length=lambda m, first: 2 if first >> 24 == 2 else M.length(m, first))
fault('a line with bit 26 has a word more', 'lines',
      length=lambda m, first: M.length(m, first) + (first >> 29 == 2 and first >> 26 & 1))
fault('03h has three words', 'opcodes', length=lambda m, first: 3 if first >> 24 == 3 else M.length(m, first))
fault('the information 7 is 1', 'reads', information=lambda m, i: 1 if i == 7 else M.information(m, i))
fault('the information 6 is 0', 'reads', information=lambda m, i: 0 if i == 6 else M.information(m, i))
fault('a pixel of 368 lasts 8 cycles', 'display', cycles=lambda m: 8 if m.mode & 0x40 else M.cycles(m))
fault('the height is doubled by bit 2 alone', 'display', is_doubled=lambda m: bool(m.mode & 4))
fault('a channel is widened by a shift alone', 'display', wide=lambda m, channel: 8 * channel)
fault('a doubled picture shows each row twice', 'display', shown_row=twice)
fault('a table\'s entries keep the low bits of MADR', 'dma', table_entry=lambda m, address: address - 4 & 0x1FFFFF)
fault('a table\'s entry is its own address', 'dma', table_entry=lambda m, address: address & 0x1FFFFC)
fault('a list ends at FFFFFFh alone', 'dma', list_ends=lambda m, address: address == 0xFFFFFF)
fault('backward goes forward', 'dma', step=lambda m, chcr: 4)
fault('DMA starts without bit 24', 'dma', is_started=lambda m, chcr: True)
fault('a reset ends the running transfer', 'turns', reset=reset_of_the_transfer)
fault('mode 0 moves a word a turn', 'turns',
      block_words=lambda m, bcr, mode: M.block_words(m, bcr, mode) if mode else (bcr & 0xFFFF or 0x10000, 1))
fault('a turn moves all', 'turns', turn=lambda m: [None for _ in m.run or ()])
fault('tall corners have nine bits of Y', 'tall', corner_bits=lambda m: 0x7FFFF)
fault('E1h bit 11 is dropped in the tall profile', 'tall', draw_mode_bits=lambda m: 0x37FF)
fault('a tall load wraps at row 512', 'tall', load_plot=lambda m, x, y, value: M.load_plot(m, x, y % 512, value))
fault('a reset ends the tall profile', 'tall', gp1=reset_to_short)
fault('the information 4 is that of 3', 'reads', information=lambda m, i: M.information(m, 3 if i == 4 else i))
