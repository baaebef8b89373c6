"""Captures for the tests: packets at random, the first events of one, and one as a zstd file."""
import random
import struct

from psxgpu.capture import (Capture, copy, draw_mode, drawing_area, drawing_offset, events, fill, line, load, mask_setting,
                     polygon, records, rectangle, screen, store, texture_window)


def prefix(data, count):
    """The capture of the first events alone."""
    version, parts = records(data)
    out = Capture(version)
    for number, (kind, n, words) in enumerate(events(parts)):
        if number < count:
            out.record(kind, n, words)
    return out.bytes()


def drawn_at_random(seed, packets=300):
    """Packets of all kinds, with control words, reads and unfinished packets between them."""
    at = random.Random(seed)
    point = lambda: (at.randrange(-80, 460), at.randrange(-60, 320))
    texel = lambda: (at.randrange(256), at.randrange(256))
    color = lambda: at.randrange(1 << 24)
    makers = [
        lambda: fill(color(), at.randrange(64) * 16, at.randrange(512), at.randrange(1025), at.randrange(200)),
        lambda: polygon([point() for _ in range(at.choice((3, 4)))], color(), semi=at.random() < 0.3),
        lambda: polygon([point() for _ in range(3)], [color() for _ in range(3)]),
        lambda: polygon([point() for _ in range(4)], color(), [texel() for _ in range(4)], page=at.randrange(512),
                        palette=at.randrange(32768), raw=at.random() < 0.3),
        lambda: line([point() for _ in range(at.choice((2, 2, 5)))], color()),
        lambda: line([point() for _ in range(3)], [color() for _ in range(3)], semi=True),
        lambda: rectangle(color(), *point(), at.choice((1, 8, 16, 37)), at.choice((1, 8, 16, 21)),
                          texture=at.choice((None, (3, 200)))),
        lambda: copy(*(at.randrange(1024) for _ in range(4)), at.randrange(1, 200), at.randrange(1, 90)),
        lambda: load(at.randrange(1024), at.randrange(512), 7, 5, [at.randrange(65536) for _ in range(35)]),
        lambda: draw_mode(at.randrange(512), dither=at.random() < 0.5),
        lambda: texture_window(*(at.randrange(32) for _ in range(4))),
        lambda: drawing_offset(at.randrange(-30, 30), at.randrange(-30, 30)),
        lambda: mask_setting(at.random() < 0.2, at.random() < 0.1),
    ]
    out = Capture(2).gp1(screen(0, 0, 320, 240)).gp0(drawing_area(0, 0, 399, 299))
    for number in range(packets):
        words = at.choice(makers)()
        if at.random() < 0.05:
            out.gp0(words[:1]).stat().gp0(words[1:])
        elif at.random() < 0.03:
            out.gp0(words[:-1]).gp1(0x01000000)
        else:
            out.gp0(words)
        if at.random() < 0.05:
            out.gp0(store(3, 4, 9, 3)).read(at.randrange(20))
        if number % 50 == 49:
            out.gp1(0x05000000 | at.randrange(1 << 18))
    return out.bytes()


def in_zstd(data):
    """One frame of one block that is not compressed."""
    return struct.pack('<IBI', 0xFD2FB528, 0xA0, len(data)) + struct.pack('<I', len(data) << 3 | 1)[:3] + data
