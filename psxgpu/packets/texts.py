"""The texts of words: colours, vertices and texture coordinates. A minute of a recording has some million of them, so
texts that come again are kept, and the others are put together from parts."""
from typing import Callable, Dict, Sequence, Tuple, TypeVar

from psxgpu.packets.parts import Point, signed, texcoord_of

CACHED = 1 << 11                # texts that are kept of each kind
ELEVEN = 0x7FF                  # the bits of X and of Y of a vertex
NUMBERS = [str(signed(value)) for value in range(ELEVEN + 1)]     # their texts
Key = TypeVar('Key', int, Tuple[int, ...])


class Texts(Dict[Key, str]):
    """The texts of words by the words. The latest are kept, since a capture repeats its words."""

    def __init__(self, text_of: Callable[[Key], str]) -> None:
        super().__init__()
        self.text_of: Callable[[Key], str] = text_of

    def __missing__(self, words: Key) -> str:
        if len(self) == CACHED:
            self.clear()
        text: str = self.text_of(words)
        self[words] = text
        return text


def pair(place: Point) -> str:
    """Returns a point as text."""
    return '(%d, %d)' % place


def color_of(word: int) -> str:
    """Returns red, green and blue of a colour."""
    return '%d %d %d' % (word & 0xFF, word >> 8 & 0xFF, word >> 16 & 0xFF)


def texcoord_text(word: int) -> str:
    """Returns a texture coordinate as text."""
    return pair(texcoord_of(word))


# The text of a colour, of several, and of several texture coordinates, by their words.
color_text = Texts[int](color_of).__getitem__
colors_text = Texts[Tuple[int, ...]](lambda words: ', '.join(map(color_text, words))).__getitem__
texcoords_text = Texts[Tuple[int, ...]](lambda words: ' '.join(map(texcoord_text, words))).__getitem__


def vertices_text(words: Sequence[int]) -> str:
    """Returns three or four vertices as text. They seldom come again, so none is kept."""
    n, m = NUMBERS, ELEVEN
    a, b, c, *more = words
    text = f'({n[a & m]}, {n[a >> 16 & m]}) ({n[b & m]}, {n[b >> 16 & m]}) ({n[c & m]}, {n[c >> 16 & m]})'
    for d in more:
        text += f' ({n[d & m]}, {n[d >> 16 & m]})'
    return text
