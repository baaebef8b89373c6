/* A toy GPU for player.c: fills, loads, stores, rectangles of one colour, the status word and the display. It knows the
   length of every packet; other packets draw nothing. docs/MACHINE.md has the rules. */
#include <stdint.h>
#include <string.h>

enum { WIDTH = 1024, HEIGHT = 512 };

typedef struct transfer {
    uint32_t x, y, w, at, left; /* the number of the next cell, and of the cells left: 0 if none is open */
} transfer;

static uint16_t vram[HEIGHT][WIDTH];
static uint32_t packet[16], have; /* the words of an unfinished packet */
static uint32_t polyline, joint;  /* the command of an open one, or 0; 1 after the colour of a vertex */
static transfer load, store;
static uint32_t env[7]; /* the values of E1h to E6h */
static uint32_t interrupt, display_off, direction, start, horizontal, vertical, display_mode, latch;

static uint32_t length_of(uint32_t first) {
    const uint32_t shaded = first >> 28 & 1, textured = first >> 26 & 1, bit_27 = first >> 27 & 1;
    switch (first >> 29) {
    case 0: return first >> 24 == 0x02 ? 3 : 1;
    case 1: return 1 + (3 + bit_27) * (1 + textured) + shaded * (2 + bit_27);
    case 2: return 3 + shaded;
    case 3: return 2 + textured + !(first >> 27 & 3);
    case 4: return 4;
    case 7: return 1;
    default: return 3;
    }
}

static transfer opened(void) {
    transfer t = {packet[1] & 0x3FF, packet[1] >> 16 & 0x1FF, ((packet[2] - 1) & 0x3FF) + 1, 0, 0};
    t.left = t.w * ((((packet[2] >> 16) - 1) & 0x1FF) + 1);
    return t;
}

/* Returns the next cell of a transfer; NULL after the last one. */
static uint16_t *next_cell(transfer *t) {
    const uint32_t at = t->at++;
    if (!t->left) return NULL;
    t->left--;
    return &vram[(t->y + at / t->w) % HEIGHT][(t->x + at % t->w) % WIDTH];
}

/* Writes a cell as the mask setting has it. */
static void put(uint16_t *cell, uint32_t value) {
    if (!((env[6] & 2) && (*cell & 0x8000))) *cell = (uint16_t)(value | (env[6] & 1) << 15);
}

static void load_word(uint32_t word) {
    unsigned half;
    for (half = 0; half < 2; half++) {
        uint16_t *cell = next_cell(&load);
        if (cell) put(cell, word >> 16 * half & 0xFFFF);
    }
}

static uint32_t color(void) {
    return (packet[0] >> 3 & 31) | (packet[0] >> 11 & 31) << 5 | (packet[0] >> 19 & 31) << 10;
}

static void fill(void) {
    const uint32_t w = ((packet[2] & 0x3FF) + 15) & ~15u, h = packet[2] >> 16 & 0x1FF;
    uint32_t x, y;
    for (y = packet[1] >> 16; y < (packet[1] >> 16) + h; y++)
        for (x = packet[1] & 0x3F0; x < (packet[1] & 0x3F0) + w; x++) vram[y % HEIGHT][x % WIDTH] = (uint16_t)color();
}

static int with_sign(uint32_t word) { return (int)((word & 0x7FF) ^ 0x400) - 0x400; }

static void rectangle(void) {
    static const int sizes[4] = {0, 1, 8, 16};
    const int size = sizes[packet[0] >> 27 & 3], left = with_sign(packet[1]) + with_sign(env[5]);
    const int top = with_sign(packet[1] >> 16) + with_sign(env[5] >> 11);
    const int w = size ? size : (int)(packet[2] & 0x3FF), h = size ? size : (int)(packet[2] >> 16 & 0x1FF);
    int x, y;
    for (y = top; y < top + h; y++)
        for (x = left; x < left + w; x++)
            if (x >= (int)(env[3] & 0x3FF) && x <= (int)(env[4] & 0x3FF) && y >= (int)(env[3] >> 10) &&
                y <= (int)(env[4] >> 10))
                put(&vram[y][x], color());
}

static void execute(void) {
    static const uint32_t kept[7] = {0, 0x37FF, 0xFFFFF, 0x7FFFF, 0x7FFFF, 0x3FFFFF, 3};
    const uint32_t opcode = packet[0] >> 24;
    if (opcode == 0x02) fill();
    else if (opcode == 0x1F) interrupt = 1;
    else if (opcode >> 5 == 2 && (opcode & 8)) polyline = packet[0];
    else if (opcode >> 5 == 3 && !(opcode & 4)) rectangle();
    else if (opcode >> 5 == 5) load = opened();
    else if (opcode >> 5 == 6) store = opened();
    else if (opcode > 0xE0 && opcode < 0xE7) env[opcode & 7] = packet[0] & kept[opcode & 7];
}

/* A write to 1F801810h. */
static void gpu_gp0(uint32_t word) {
    if (load.left) load_word(word);
    else if (polyline && !joint && (word & 0xF000F000) == 0x50005000) polyline = 0;
    else if (polyline) joint = (polyline >> 28 & 1) && !joint;
    else {
        packet[have++] = word;
        if (have < length_of(packet[0])) return;
        have = 0;
        execute();
    }
}

static void reset(void) {
    memset(env, 0, sizeof env);
    interrupt = direction = start = display_mode = 0;
    display_off = 1;
    horizontal = 0xC00200;
    vertical = 0x40010;
}

/* A write to 1F801814h. */
static void gpu_gp1(uint32_t word) {
    const uint32_t opcode = word >> 24 & 0x3F, index = word & 15;
    if (opcode < 2) have = polyline = joint = load.left = store.left = 0;
    switch (opcode) {
    case 0: reset(); break;
    case 2: interrupt = 0; break;
    case 3: display_off = word & 1; break;
    case 4: direction = word & 3; break;
    case 5: start = word & 0x7FFFF; break;
    case 6: horizontal = word & 0xFFFFFF; break;
    case 7: vertical = word & 0xFFFFF; break;
    case 8: display_mode = word & 0xFF; break;
    default:
        if (opcode >> 4 == 1 && index >= 2 && index <= 5) latch = env[index];
        if (opcode >> 4 == 1 && (index == 7 || index == 8)) latch = index == 7 ? 2 : 0;
    }
}

/* A read of 1F801810h. */
static uint32_t gpu_read(void) {
    const uint16_t *low = next_cell(&store), *high = next_cell(&store);
    if (low) latch = (uint32_t)*low | (high ? (uint32_t)*high << 16 : 0);
    return latch;
}

/* A read of 1F801814h. */
static uint32_t gpu_status(void) {
    const uint32_t is_idle = !have && !load.left && !polyline, sends = store.left != 0;
    const uint32_t requests[4] = {0, 1, !sends, sends};
    return (env[1] & 0x7FF) | env[6] << 11 | 1u << 13 | (display_mode & 0x80) << 7 | (display_mode & 0x40) << 10 |
           (display_mode & 0x3F) << 17 | display_off << 23 | interrupt << 24 | requests[direction] << 25 |
           is_idle << 26 | sends << 27 | (uint32_t)!sends << 28 | direction << 29;
}

static uint16_t gpu_cell(uint32_t x, uint32_t y) { return vram[y][x]; }

static uint32_t above(uint32_t end, uint32_t first) { return end > first ? end - first : 0; }

/* The displayed picture: its size, and byte k of a row. */
static uint32_t gpu_shown_width(void) {
    static const uint32_t cycles[4] = {10, 8, 5, 4};
    const uint32_t pixel = display_mode & 0x40 ? 7 : cycles[display_mode & 3];
    return (above(horizontal >> 12, horizontal & 0xFFF) / pixel + 2) & ~3u;
}

static uint32_t gpu_shown_height(void) {
    const uint32_t is_doubled = (display_mode & 0x24) == 0x24;
    return above(vertical >> 10, vertical & 0x3FF) << is_doubled;
}

static unsigned char gpu_shown_byte(uint32_t row, uint32_t k) {
    const uint16_t *cells = vram[((start >> 10) + row) % HEIGHT];
    uint32_t channel;
    if (display_mode & 0x10) return (unsigned char)(cells[(start + k / 2) % WIDTH] >> 8 * (k & 1));
    channel = cells[(start + k / 3) % WIDTH] >> 5 * (k % 3) & 31;
    return (unsigned char)(8 * channel + channel / 4);
}
