"""The page that a test program shows at its end: a map of video memory or squares of tests, and lines of text with
numbers."""
from typing import Iterable, NamedTuple

MAP_X, MAP_Y = 32, 88
SIDE = 6                    # of the square of a test
POLLS = 0xFFFF              # of the status word, until a test fails: more than a frame
# GP1: the page's part of video memory and its mode, 320 by 240 cells at (0, 0).
SCREEN = 0x05000000, 0x06C60260, 0x07040010, 0x08000001
# GP0: the drawing area, no masks, a black page; a dark ground for the map.
BLACK = 0xE1000400, 0xE3000000, 0xE407FFFF, 0xE5000000, 0xE6000000, 0x02000000, 0, 0xF00140
GROUND = (*BLACK, 0x02202020, 0x500010, 0x900120)


class Line(NamedTuple):
    """A line: the text before the number, the label of the number, the text after it."""
    before: str
    number: str
    after: str


LINES = (Line('VIDEO MEMORY: ', 'parts', ' OF 128 PARTS DIFFER'), Line('READS: ', 'reads', ' DIFFER'),
         Line('WAITS TOO LONG: ', 'waits', ''))
GLYPHS = {
    '0': '### #.# #.# #.# ###', '1': '.#. ##. .#. .#. ###', '2': '### ..# ### #.. ###', '3': '### ..# ### ..# ###',
    '4': '#.# #.# ### ..# ..#', '5': '### #.. ### ..# ###', '6': '### #.. ### #.# ###', '7': '### ..# ..# .#. .#.',
    '8': '### #.# ### #.# ###', '9': '### #.# ### ..# ###', 'A': '.#. #.# ### #.# #.#', 'B': '##. #.# ##. #.# ##.',
    'C': '.## #.. #.. #.. .##', 'D': '##. #.# #.# #.# ##.', 'E': '### #.. ##. #.. ###', 'F': '### #.. ##. #.. #..',
    'G': '.## #.. #.# #.# .##', 'H': '#.# #.# ### #.# #.#', 'I': '### .#. .#. .#. ###', 'K': '#.# #.# ##. #.# #.#',
    'L': '#.. #.. #.. #.. ###', 'M': '#.# ### ### #.# #.#', 'N': '##. #.# #.# #.# #.#', 'O': '.#. #.# #.# #.# .#.',
    'P': '##. #.# ##. #.. #..', 'R': '##. #.# ##. #.# #.#', 'S': '.## #.. .#. ..# ##.', 'T': '### .#. .#. .#. .#.',
    'U': '#.# #.# #.# #.# ###', 'V': '#.# #.# #.# #.# .#.', 'W': '#.# #.# ### ### #.#', 'X': '#.# #.# .#. #.# #.#',
    'Y': '#.# #.# .#. .#. .#.', ':': '... .#. ... .#. ...'}


def glyph(character: str) -> int:
    """Returns the dots of a character: five rows of three, the first in bit 0."""
    dots = GLYPHS.get(character, '').replace(' ', '')
    return sum(1 << k for k, dot in enumerate(dots) if dot == '#')


def written(lines: Iterable[Line]) -> str:
    """Returns the characters of lines in the language of the assembler, with labels before them and before the digits of
    their numbers."""
    return ''.join('line%d: .ascii "%s"\ndigits%d: .ascii "000%s\\0"\n' % (k, line.before, k, line.after)
                   for k, line in enumerate(lines))


def row(k: int) -> int:
    """Returns where line k begins, as a vertex."""
    return (20 + 18 * k) << 16 | 16
