"""A frame as a game draws it: textures go through DMA in blocks, packets stand in main memory, an ordering table is
cleared by channel 6, and channel 2 walks it. `textured_frame` gives the capture."""
from psxgpu.capture import *  # noqa: F403

SKY, FLOOR, CUBE, FRONT = 60, 40, 20, 0     # depths in the ordering table; 0 is drawn last
BRICKS = texture_page(640, 0, 0)            # 4 bits
SUN = texture_page(704, 0, 1, blend=1)      # 8 bits, added to what is there
GLASS = texture_page(768, 0, 2, blend=0)    # 15 bits, half and half
BRICK_PALETTE, SUN_PALETTE = (0, 480), (0, 481)


def rgb(red, green, blue):
    """A cell of three 5-bit channels."""
    return red | green << 5 | blue << 10


def bricks():
    """64 by 64 texels of 4 bits, four in a cell."""
    def texel(x, y):
        row = y // 8
        joint = y % 8 == 7 or (x + 8 * (row % 2)) % 16 == 15
        return 0 if joint else 1 + (7 * row + 5 * ((x + 8 * (row % 2)) // 16)) % 6
    return [sum(texel(4 * x + k, y) << 4 * k for k in range(4)) for y in range(64) for x in range(16)]


def brick_palette():
    return [rgb(9, 9, 9)] + [rgb(18 + k, 8 + k, 6 + k % 3) for k in range(6)] + [0] * 9


def sun():
    """64 by 64 texels of 8 bits, two in a cell: the distance from the middle."""
    def texel(x, y):
        return min(255, ((2 * x - 63) ** 2 + (2 * y - 63) ** 2) * 255 // 3969)
    return [texel(2 * x, y) | texel(2 * x + 1, y) << 8 for y in range(64) for x in range(32)]


def sun_palette():
    """Bit 15 makes a texel semi-transparent; 0 is not drawn."""
    lights = range(255, 0, -1)
    return [0x8000 | rgb(31 * k // 255, 27 * k ** 2 // 65025, 8 * k // 255) for k in lights] + [0]


def glass():
    """32 by 32 texels of 15 bits: a frame without bit 15, and panes with it."""
    return [rgb(4, 5, 6) if x % 16 in (0, 15) or y % 16 in (0, 15) else 0x8000 | rgb(20, 28, 30)
            for y in range(32) for x in range(32)]


def load_by_blocks(capture, address, x, y, w, h, cells):
    """The cells go to main memory, the load's head to the port, and channel 2 moves the data words in blocks of 16."""
    words = load(x, y, w, h, cells)
    capture.ram(address, words[3:])
    capture.gp0(words[:3])
    capture.dma(2, address, (len(words) - 3) // 16 << 16 | 16, BLOCKS_IN)


def ground(x, z):
    """A place on the ground, as seen: z is the distance."""
    return 160 + x * 160 // z, 112 + 96 * 64 // z


def floor(table):
    """Bricks up to the horizon, in rows of quads as wide as the picture; each row darker with the distance."""
    depths = [48, 56, 68, 84, 108, 144, 208, 360]
    for row, (near, far) in enumerate(zip(depths, depths[1:])):
        gray = 0x70 - 12 * row
        columns = -(-far // 48)
        for column in range(-columns, columns):
            x1, x2 = 48 * column, 48 * (column + 1)
            corners = [ground(x1, far), ground(x2, far), ground(x1, near), ground(x2, near)]
            table.add(FLOOR, polygon(corners, 0x010101 * gray, texture=[(0, 0), (48, 0), (0, 48), (48, 48)],
                                     page=BRICKS, palette=clut(*BRICK_PALETTE)))


def cube(table):
    """Three faces of a cube, each with a light of its own, and its edges as lines."""
    top = [(100, 96), (156, 84), (128, 112), (188, 98)]
    left = [(100, 96), (128, 112), (102, 156), (128, 180)]
    right = [(128, 112), (188, 98), (128, 180), (184, 160)]
    texture = [(0, 0), (63, 0), (0, 63), (63, 63)]
    for corners, light in ((top, 0xA0A0A0), (left, 0x505868), (right, 0x788090)):
        table.add(CUBE, polygon(corners, light, texture=texture, page=BRICKS, palette=clut(*BRICK_PALETTE)))
    table.add(CUBE - 1, line([top[0], top[1], top[3], top[2], top[0]], 0x203040))
    table.add(CUBE - 1, line([top[2], right[2]], [0x203040, 0x000000]))
    # Its shadow halves what lies under it.
    table.add(CUBE + 1, polygon([(128, 180), (184, 160), (190, 192), (250, 166)], 0x000000, semi=True))


def front(table):
    """A sun, a window of glass, and a bar of tiles and sprites."""
    table.add(SKY - 1, polygon([(216, 8), (280, 8), (216, 72), (280, 72)], 0x808080, page=SUN, semi=True,
                               texture=[(0, 0), (63, 0), (0, 63), (63, 63)], palette=clut(*SUN_PALETTE)))
    for k in range(2):
        pane = rectangle(0x808080, 224 + 40 * k, 96 + 12 * k, 32, 32, texture=(0, 0), semi=True)
        table.add(FRONT + 1, [draw_mode(GLASS), pane])
    for k in range(18):
        color = 0x40FF40 if k < 11 else 0x404040
        table.add(FRONT, rectangle(color, 16 + 10 * k, 224, 8, 8))
    table.add(FRONT, rectangle(0x402020, 8, 220, 304, 16, semi=True))
    table.add(FRONT, draw_mode(GLASS))


def textured_frame():
    capture = Capture()
    capture.gp1(reset(), screen(0, 0, 320, 240), dma_direction(2))
    load_by_blocks(capture, 0x100000, 640, 0, 16, 64, bricks())
    load_by_blocks(capture, 0x102000, 704, 0, 32, 64, sun())
    load_by_blocks(capture, 0x104000, 768, 0, 32, 32, glass())
    load_by_blocks(capture, 0x106000, *BRICK_PALETTE, 32, 1, brick_palette() + [0] * 16)
    load_by_blocks(capture, 0x107000, *SUN_PALETTE, 256, 1, sun_palette())
    capture.gp0(drawing_area(0, 0, 319, 239), drawing_offset(0, 0), mask_setting(), texture_window(0, 0, 0, 0))
    table = OrderingTable(capture, entries=64)
    table.clear()
    # The sky, shaded and dithered.
    table.add(SKY, [draw_mode(dither=True),
                    polygon([(0, 0), (320, 0), (0, 130), (320, 130)], [0x602818, 0x502010, 0xD0B0A0, 0xC098B0])])
    floor(table)
    cube(table)
    front(table)
    table.draw()
    capture.stat()
    return capture
