"""A toy GPU for player.py: fills, loads, stores, rectangles of one colour, the status word and the display. It knows
the length of every packet; other packets draw nothing. docs/MACHINE.md has the rules."""
from array import array

WIDTH, HEIGHT = 1024, 512
KEPT = {0xE1: 0x37FF, 0xE2: 0xFFFFF, 0xE3: 0x7FFFF, 0xE4: 0x7FFFF, 0xE5: 0x3FFFFF, 0xE6: 3}     # bits of E1h to E6h
SIZES = {1: 1, 2: 8, 3: 16}
CYCLES = (10, 8, 5, 4)


def length_of(first):
    """Returns the number of words of the packet that a word begins."""
    shaded, textured, bit_27 = first >> 28 & 1, first >> 26 & 1, first >> 27 & 1
    return (3 if first >> 24 == 2 else 1, 1 + (3 + bit_27) * (1 + textured) + shaded * (2 + bit_27), 3 + shaded,
            2 + textured + (not first >> 27 & 3), 4, 3, 3, 1)[first >> 29]


def signed(word):
    """Returns the lowest eleven bits as a number with a sign."""
    return (word & 0x7FF ^ 0x400) - 0x400


def transfer(words):
    """Yields the index of each cell of a load or store, row after row."""
    x, y = words[1] & 0x3FF, words[1] >> 16 & 0x1FF
    w, h = (words[2] - 1 & 0x3FF) + 1, ((words[2] >> 16) - 1 & 0x1FF) + 1
    for row in range(y, y + h):
        for column in range(x, x + w):
            yield row % HEIGHT * WIDTH + column % WIDTH


class Gpu:
    """The GPU."""

    def __init__(self):
        self.vram = array('H', bytes(2 * WIDTH * HEIGHT))
        self.latch = 0
        self.gp1(0)

    def drop(self):
        """Drops what is unfinished: a packet, a polyline, a load, a store."""
        self.packet, self.polyline, self.joint = [], 0, 0
        self.load, self.store = [], []                  # indexes of the cells left, the next one at the end

    def reset(self):
        """Sets all registers."""
        self.env = dict.fromkeys(KEPT, 0)
        self.interrupt, self.display_off, self.direction, self.start, self.mode = 0, 1, 0, 0, 0
        self.horizontal, self.vertical = 0xC00200, 0x40010

    def gp0(self, word):
        """Takes a write to 1F801810h."""
        if self.load:
            for cell in (word & 0xFFFF, word >> 16):
                if self.load:
                    self.put(self.load.pop(), cell)
        elif self.polyline and not self.joint and word & 0xF000F000 == 0x50005000:
            self.polyline = 0
        elif self.polyline:
            self.joint = self.polyline >> 28 & 1 and not self.joint
        else:
            self.packet.append(word)
            if len(self.packet) == length_of(self.packet[0]):
                words, self.packet = self.packet, []
                self.execute(words)

    def execute(self, words):
        """Does what a packet says."""
        opcode = words[0] >> 24
        if opcode == 0x02:
            self.fill(words)
        elif opcode == 0x1F:
            self.interrupt = 1
        elif opcode >> 5 == 2 and opcode & 8:
            self.polyline = words[0]
        elif opcode >> 5 == 3 and not opcode & 4:
            self.rectangle(words)
        elif opcode >> 5 == 5:
            self.load = list(transfer(words))[::-1]
        elif opcode >> 5 == 6:
            self.store = list(transfer(words))[::-1]
        elif opcode in KEPT:
            self.env[opcode] = words[0] & KEPT[opcode]

    def put(self, at, cell):
        """Writes a cell as the mask setting has it."""
        if not (self.env[0xE6] & 2 and self.vram[at] & 0x8000):
            self.vram[at] = cell | (self.env[0xE6] & 1) << 15

    @staticmethod
    def color(word):
        """Returns the cell of a colour."""
        return word >> 3 & 31 | (word >> 11 & 31) << 5 | (word >> 19 & 31) << 10

    def fill(self, words):
        """Fills cells, which neither the drawing area nor the mask setting keeps."""
        left, top = words[1] & 0x3F0, words[1] >> 16
        for y in range(top, top + (words[2] >> 16 & 0x1FF)):
            for x in range(left, left + ((words[2] & 0x3FF) + 15 & ~15)):
                self.vram[y % HEIGHT * WIDTH + x % WIDTH] = self.color(words[0])

    def rectangle(self, words):
        """Draws a rectangle of one colour, cut by the drawing area."""
        left, top = signed(words[1]) + signed(self.env[0xE5]), signed(words[1] >> 16) + signed(self.env[0xE5] >> 11)
        size = SIZES.get(words[0] >> 27 & 3)
        w, h = (size, size) if size else (words[2] & 0x3FF, words[2] >> 16 & 0x1FF)
        (x1, y1), (x2, y2) = ((self.env[code] & 0x3FF, self.env[code] >> 10) for code in (0xE3, 0xE4))
        for y in range(max(top, y1), min(top + h, y2 + 1)):
            for x in range(max(left, x1), min(left + w, x2 + 1)):
                self.put(y * WIDTH + x, self.color(words[0]))

    def gp1(self, word):
        """Takes a write to 1F801814h."""
        opcode, index = word >> 24 & 0x3F, word & 15
        if opcode < 2:
            self.drop()
        if opcode == 0:
            self.reset()
        elif opcode == 2:
            self.interrupt = 0
        elif opcode == 3:
            self.display_off = word & 1
        elif opcode in (4, 5, 6, 7, 8):
            name, mask = {4: ('direction', 3), 5: ('start', 0x7FFFF), 6: ('horizontal', 0xFFFFFF),
                          7: ('vertical', 0xFFFFF), 8: ('mode', 0xFF)}[opcode]
            setattr(self, name, word & mask)
        elif opcode >> 4 == 1 and index in (2, 3, 4, 5, 7, 8):
            self.latch = {7: 2, 8: 0}.get(index, self.env.get(0xE0 + index))

    def read(self):
        """Returns the word of a read of 1F801810h."""
        if self.store:
            low = self.vram[self.store.pop()]
            self.latch = low | (self.vram[self.store.pop()] << 16 if self.store else 0)
        return self.latch

    def status(self):
        """Returns the word of a read of 1F801814h."""
        is_idle, sends = not (self.packet or self.load or self.polyline), bool(self.store)
        request = (0, 1, not sends, sends)[self.direction]
        return (self.env[0xE1] & 0x7FF | self.env[0xE6] << 11 | 1 << 13 | (self.mode & 0x80) << 7
                | (self.mode & 0x40) << 10 | (self.mode & 0x3F) << 17 | self.display_off << 23 | self.interrupt << 24
                | request << 25 | is_idle << 26 | sends << 27 | (not sends) << 28 | self.direction << 29)

    def picture(self):
        """Returns width, height and bytes of the displayed picture, three bytes a pixel."""
        cycles = 7 if self.mode & 0x40 else CYCLES[self.mode & 3]
        width = max(0, (self.horizontal >> 12) - (self.horizontal & 0xFFF)) // cycles + 2 & ~3
        height = max(0, (self.vertical >> 10) - (self.vertical & 0x3FF)) << (self.mode & 0x24 == 0x24)
        pixels = bytearray()
        for y in range(self.start >> 10, (self.start >> 10) + height):
            row = self.vram[y % HEIGHT * WIDTH:y % HEIGHT * WIDTH + WIDTH]
            cells = [row[(self.start + x) % WIDTH] for x in range(2 * width)]
            if self.mode & 0x10:
                pixels += b''.join(cell.to_bytes(2, 'little') for cell in cells)[:3 * width]
            else:
                pixels += bytes(8 * (c >> at & 31) + (c >> at & 31) // 4 for c in cells[:width] for at in (0, 5, 10))
        return width, height, bytes(pixels)
