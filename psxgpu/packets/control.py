"""What a control word says, and the names of note classes."""
from typing import Callable, Dict

from psxgpu.packets.grammar import FINISH, name_and_length

WIDTHS = (256, 320, 512, 640)
FINISHED, PIXELS = 8, 9


def ranges(word: int, shift: int, mask: int) -> str:
    """Returns the two ends in a word."""
    return '%d to %d' % (word & mask, word >> shift & mask)


def mode(word: int) -> str:
    """Returns what a display mode sets."""
    parts = ['width %d' % (368 if word & 0x40 else WIDTHS[word & 3]), 'PAL' if word & 8 else 'NTSC']
    flags = ((4, 'double height'), (0x10, '24 bits'), (0x20, 'interlaced'), (0x80, 'bit 7'))
    return 'display mode: ' + ', '.join(parts + [name for bit, name in flags if word & bit])


def control(word: int, rows: int) -> str:
    """Returns what a word for GP1 does. `rows`: of video memory."""
    opcode = word >> 24 & 0x3F
    if 0x10 <= opcode <= 0x1F:
        return 'information %d' % (word & 15)
    texts: Dict[int, Callable[[], str]] = {
        0: lambda: 'reset', 1: lambda: 'ends what is unfinished', 2: lambda: 'clears the interrupt bit',
        3: lambda: 'display off' if word & 1 else 'display on', 4: lambda: 'DMA direction %d' % (word & 3),
        5: lambda: 'display start (%d, %d)' % (word & 0x3FF, word >> 10 & rows - 1),
        6: lambda: 'horizontal range %s' % ranges(word, 12, 0xFFF),
        7: lambda: 'vertical range %s' % ranges(word, 10, 0x3FF), 8: lambda: mode(word)}
    return texts[opcode]() if opcode in texts else 'nothing'


def class_name(number: int, word: int) -> str:
    """Returns the name that `list` has for a note of this class and first word."""
    return {FINISHED: FINISH, PIXELS: 'pixels'}.get(number) or name_and_length(word)[0]
