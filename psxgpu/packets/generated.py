"""Random packets, class by class, on which two players are compared. docs/EMULATORS.md has the reason for each class.
Each function takes a generator of random numbers and returns words."""
import struct
from random import Random
from typing import Any, Callable, Dict, List, Sequence, Tuple

from psxgpu.registers import draw_mode, drawing_area, drawing_offset, mask_setting, texture_window
from psxgpu.words import clut, copy, fill, line, load, polygon, rectangle, texture_page

Make = Callable[[Random], List[int]]
WIDTH, HEIGHT = 320, 240      # what is drawn on: the top left of video memory
COLUMNS, ROWS, SQUARE = 1024, 512, 64       # of video memory, and of the random cells that are repeated in it
AREA = drawing_area(0, 0, WIDTH - 1, HEIGHT - 1)


def background(r: Random) -> List[int]:
    """Returns the words for random cells in all of video memory, where packets draw and find pages and palettes.

    They have no period: the squares of 64 by 64 cells are those of the first one, each shifted by a distance of its
    own. So a player that takes another page, or drops a bit of a texture window, finds other texels."""
    words = [0xA0000000, 0, SQUARE << 16 | SQUARE, *struct.unpack('<2048I', r.randbytes(2 * SQUARE * SQUARE))]
    words += copy(0, 0, SQUARE, 0, SQUARE, SQUARE) + copy(0, 0, 0, SQUARE, 2 * SQUARE, SQUARE)
    places = [(x, y) for y in range(0, ROWS, SQUARE) for x in range(0, COLUMNS, SQUARE) if x > SQUARE or y > SQUARE]
    for place, distance in zip(places, r.sample(range(1, SQUARE * SQUARE), len(places))):
        words += copy(distance % SQUARE, distance // SQUARE, *place, SQUARE, SQUARE)
    for place in ((SQUARE, 0), (0, SQUARE), (SQUARE, SQUARE)):      # no longer the first one again
        words += copy(r.randrange(512, 960), r.randrange(256, 448), *place, SQUARE, SQUARE)
    return words


def place(r: Random, margin: int = 0) -> Tuple[int, int]:
    """Returns a corner on the part that is drawn on, or `margin` cells outside of it."""
    return r.randrange(-margin, WIDTH + margin), r.randrange(-margin, HEIGHT + margin)


def color(r: Random) -> int:
    """Returns a colour."""
    return r.getrandbits(24)


def palette(r: Random) -> int:
    """Returns a palette's attribute."""
    return clut(16 * r.randrange(40), 256 + r.randrange(256))


def page(r: Random, depths: Sequence[int] = (0, 1, 2), last: int = 12) -> int:
    """Returns a texture page's attribute."""
    return texture_page(64 * r.randrange(8, last), 256 * r.randrange(2), r.choice(depths), r.randrange(4))


def fills(r: Random) -> List[int]:
    """Returns a fill."""
    return fill(color(r), r.randrange(1024), r.randrange(512), r.randrange(1024), r.randrange(512))


def loads(r: Random) -> List[int]:
    """Returns a load."""
    w, h = r.randrange(1, 40), r.randrange(1, 40)
    return load(r.randrange(1024), r.randrange(512), w, h, [r.getrandbits(16) for _ in range(w * h)])


def copies(r: Random) -> List[int]:
    """Returns a copy between rectangles that do not meet."""
    source, target = (r.randrange(600), r.randrange(256)), (r.randrange(1024), 256 + r.randrange(256))
    return copy(*source, *target, r.randrange(1, 300), r.randrange(1, 100))


def copies_to_the_right(r: Random) -> List[int]:
    """Returns a copy whose target overlaps its source to the right."""
    x, y = r.randrange(500), r.randrange(256)
    return copy(x, y, x + r.randrange(1, 100), y, r.randrange(128, 400), r.randrange(1, 60))


def tiles(r: Random, **settings: Any) -> List[int]:
    """Returns a rectangle of one colour."""
    return rectangle(color(r), *place(r, 30), r.randrange(1, 100), r.randrange(1, 100), **settings)


def sprites(r: Random, flip: bool = False) -> List[int]:
    """Returns a textured rectangle."""
    u = r.randrange(256)
    return (draw_mode(page(r), flip_x=flip, flip_y=r.random() < 0.3)
            + tiles(r, texture=(u | flip, r.randrange(256)), palette=palette(r), semi=r.random() < 0.4,
                    raw=r.random() < 0.4))


def flipped_even(r: Random) -> List[int]:
    """Returns a textured rectangle with X flip and an even U."""
    return (draw_mode(page(r), flip_x=True)
            + tiles(r, texture=(2 * r.randrange(128), r.randrange(256)), palette=palette(r), raw=True))


def corners(r: Random, n: int) -> List[Tuple[int, int]]:
    """Returns `n` vertices."""
    return [place(r, 40) for _ in range(n)]


def triangles(r: Random) -> List[int]:
    """Returns a triangle of one colour."""
    return polygon(corners(r, 3), color(r), semi=r.random() < 0.3)


def quads(r: Random) -> List[int]:
    """Returns a quad of one colour."""
    return polygon(corners(r, 4), color(r))


def shaded(r: Random) -> List[int]:
    """Returns a triangle of three colours."""
    return polygon(corners(r, 3), [color(r) for _ in range(3)])


def one_to_one(r: Random) -> List[int]:
    """Returns a textured quad with a texel for each cell."""
    (x, y), w, h = place(r), r.randrange(1, 120), r.randrange(1, 120)
    u, v = r.randrange(256 - w), r.randrange(256 - h)
    return polygon([(x, y), (x + w, y), (x, y + h), (x + w, y + h)], color(r), page=page(r), palette=palette(r),
                   texture=[(u, v), (u + w, v), (u, v + h), (u + w, v + h)], semi=r.random() < 0.4,
                   raw=r.random() < 0.4)


def scaled(r: Random) -> List[int]:
    """Returns a triangle whose texture is scaled and turned."""
    texture = [(r.randrange(256), r.randrange(256)) for _ in range(3)]
    return polygon(corners(r, 3), color(r), texture=texture, page=page(r), palette=palette(r), raw=r.random() < 0.5)


def straight(r: Random) -> List[int]:
    """Returns a line on an axis or on a diagonal."""
    (x, y), n, (dx, dy) = place(r, 30), r.randrange(200), r.choice(((1, 0), (0, 1), (1, 1), (1, -1)))
    return line([(x, y), (x + n * dx, y + n * dy)], color(r), semi=r.random() < 0.3)


def sloped(r: Random) -> List[int]:
    """Returns a line of any direction."""
    return line(corners(r, 2), color(r))


def two_colours(r: Random) -> List[int]:
    """Returns a line of two colours on an axis or on a diagonal."""
    words = straight(r)
    return [words[0] | 0x10000000, words[1], color(r), words[2]]


def dithered(piece: Make) -> Make:
    """Returns a function for the same under dither. One of one colour does not depend on interpolation."""
    return lambda r: draw_mode(dither=True) + piece(r)


def one_colour(r: Random) -> List[int]:
    """Returns a shaded triangle whose colours are the same."""
    return polygon(corners(r, 3), [color(r)] * 3)


def windows(r: Random) -> List[int]:
    """Returns a textured rectangle under a texture window. Masks are whole powers of two."""
    mask_x, mask_y = (r.choice((0, 16, 24, 28, 30, 31)) for _ in range(2))
    return texture_window(mask_x, mask_y, r.randrange(32), r.randrange(32)) + sprites(r)


def masked(r: Random) -> List[int]:
    """Returns a packet under a mask setting."""
    pieces: Sequence[Make] = (tiles, triangles, straight, sprites, copies, loads)
    piece = r.choice(pieces)
    return mask_setting(r.random() < 0.5, r.random() < 0.5) + piece(r)


def blended(r: Random) -> List[int]:
    """Returns a semi-transparent rectangle."""
    return draw_mode(r.randrange(4) << 5) + tiles(r, semi=True)


def clipped(r: Random) -> List[int]:
    """Returns a packet within a small drawing area."""
    pieces: Sequence[Make] = (tiles, triangles, straight, sprites)
    x, y = place(r)
    return (drawing_area(x, y, x + r.randrange(100), y + r.randrange(100))
            + r.choice(pieces)(r))


def moved(r: Random) -> List[int]:
    """Returns a packet under a drawing offset."""
    pieces: Sequence[Make] = (tiles, triangles, straight)
    return drawing_offset(r.randrange(-200, 200), r.randrange(-200, 200)) + r.choice(pieces)(r)


def far(r: Random) -> List[int]:
    """Returns a rectangle whose vertex and offset have a sum of more than eleven bits."""
    x, y = r.randrange(700, 1023), r.randrange(HEIGHT)
    return drawing_offset(r.randrange(900, 1023), 0) + rectangle(color(r), x, y, 400, 20)


def large(r: Random) -> List[int]:
    """Returns a triangle about the limits of the size rule."""
    x, y = r.randrange(-600, 0), r.randrange(-300, 0)
    right = (x + 1022 + r.randrange(3), y + r.randrange(100))
    below = (x + r.randrange(100), y + 510 + r.randrange(3))
    return polygon([(x, y), right, below], color(r))


def wraps(r: Random) -> List[int]:
    """Returns a rectangle whose page and palette are at the right edge of video memory."""
    return (draw_mode(texture_page(64 * r.randrange(12, 16), 256 * r.randrange(2), r.randrange(4)))
            + tiles(r, texture=(r.randrange(256), r.randrange(256)), raw=True,
                    palette=clut(1008, r.randrange(256, 512))))


CLASSES: Dict[str, Make] = {
    'fills': fills,
    'loads': loads,
    'copies that do not overlap': copies,
    'copies that overlap to the right': copies_to_the_right,
    'rectangles, flat': tiles,
    'rectangles, textured': sprites,
    'rectangles, X flip with an odd U': lambda r: sprites(r, True),
    'rectangles, X flip with an even U': flipped_even,
    'triangles, flat': triangles,
    'quads, flat': quads,
    'triangles, gouraud': shaded,
    'triangles of one colour, dithered': dithered(one_colour),
    'quads, textured one to one': one_to_one,
    'triangles, textured, scaled': scaled,
    'lines on axes and diagonals': straight,
    'lines, sloped': sloped,
    'lines of two colours': two_colours,
    'texture windows': windows,
    'mask settings': masked,
    'semi-transparency': blended,
    'drawing area': clipped,
    'offsets': moved,
    'offsets beyond eleven bits': far,
    'the size rule': large,
    'pages and palettes at the edge': wraps,
}
