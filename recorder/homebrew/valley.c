/* valley: what a 3D game's frame is made of. A ground of hundreds of small quads, textured through windows, shaded,
   dithered and fogged; semi-transparent water whose texture and palette are loaded in each frame; trees with holes and
   shadows; untextured crystals; a sky; numbers, bars and a panel over it. 320 by 240, two buffers, a camera that moves
   and turns. */
#define DEPTHS 512
#define ROOM 40000
#include "psx.h"
#include "sine.h"
#include "table.h"

#define GRID 34
#define STEP 64
#define NEAR 90
#define FAR 1900
#define GROUND PAGE(512, 0, 0, 0)
#define WATER PAGE(576, 0, 1, 0)
#define SKY PAGE(640, 0, 2, 0)
#define GROUND_CLUT(kind) CLUT(512, 480 + (kind))
#define WATER_CLUT CLUT(512, 490)

struct point { int x, y, z; };

static struct point seen[GRID + 1][GRID + 1], surface[GRID + 1][GRID + 1];
static u32 light[GRID + 1][GRID + 1];
static int s, c, camera_x, camera_y, camera_z, first_x, first_z, frame;

static int wave(int a) { return sine[a & 255]; }

/* Of the ground at a corner of the grid; the water stands at 0. */
static int height(int x, int z) {
    return 50 + (wave(x * 11 + z * 5) + wave(z * 13 - x * 7) + wave(x * 5 + z * 6) * 2) / 100;
}

/* From the world to the screen: turned around the camera, and projected. */
static struct point project(int x, int y, int z) {
    const int dx = x - camera_x, dz = z - camera_z;
    struct point p;
    p.z = (dz * c + dx * s) >> 12;
    p.x = (dx * c - dz * s) >> 12;
    if (p.z >= NEAR) {
        p.x = p.x * 220 / p.z;
        p.y = (camera_y - y) * 220 / p.z - 30;
    }
    return p;
}

/* A tone of 0 to 255 becomes a colour that goes over to that of the fog with the distance. */
static u32 fogged(int tone, int z) {
    const int fog = z > FAR ? 256 : z * 256 / FAR, clear = 256 - fog;
    const int red = (tone * clear + 60 * fog) >> 8, green = (tone * clear + 70 * fog) >> 8;
    return (u32)red | (u32)green << 8 | (u32)((tone * clear + 110 * fog) >> 8) << 16;
}

static void project_grid(void) {
    int i, j;
    for (i = 0; i <= GRID; i++)
        for (j = 0; j <= GRID; j++) {
            const int x = first_x + i, z = first_z + j, y = height(x, z), slope = y - height(x + 1, z);
            const int tone = 120 + slope * 2 > 255 ? 255 : 120 + slope * 2 < 30 ? 30 : 120 + slope * 2;
            seen[i][j] = project(x * STEP, y, z * STEP);
            surface[i][j] = project(x * STEP, wave(frame * 4 + x * 40 + z * 24) / 500, z * STEP);
            light[i][j] = fogged(tone, seen[i][j].z);
        }
}

static int is_shown(struct point a, struct point b, struct point d, struct point e) {
    if (a.z < NEAR || b.z < NEAR || d.z < NEAR || e.z < NEAR || a.z > FAR) return 0;
    if (a.x < -160 && b.x < -160 && d.x < -160 && e.x < -160) return 0;
    if (a.x > 160 && b.x > 160 && d.x > 160 && e.x > 160) return 0;
    return a.y < 120 || b.y < 120 || d.y < 120 || e.y < 120;
}

static int depth_of(struct point a, struct point d) {
    const int depth = (a.z + d.z) * (DEPTHS - 40) / (2 * FAR) + 32;
    return depth < DEPTHS - 2 ? depth : DEPTHS - 3;
}

/* One cell of the ground: a window picks grass, sand or rock, which repeats twice. */
static void add_cell(int i, int j) {
    const struct point a = seen[i][j], b = seen[i + 1][j], d = seen[i][j + 1], e = seen[i + 1][j + 1];
    const int y = height(first_x + i, first_z + j);
    const int kind = y > 60 ? 2 : y > -10 ? 0 : 1;
    if (!is_shown(a, b, d, e)) return;
    ADD(depth_of(a, e), WINDOW(0x18, 0x18, kind * 8, 0), 0x3C000000 | light[i][j], VERT(a.x, a.y),
        UVA(0, 0, GROUND_CLUT(kind)), light[i + 1][j], VERT(b.x, b.y), UVA(127, 0, GROUND), light[i][j + 1],
        VERT(d.x, d.y), UVA(0, 127, 0), light[i + 1][j + 1], VERT(e.x, e.y), UVA(127, 127, 0));
}

static void add_water(int i, int j) {
    const struct point a = surface[i][j], b = surface[i + 1][j], d = surface[i][j + 1], e = surface[i + 1][j + 1];
    const int x = first_x + i, z = first_z + j;
    const u32 near = fogged(150, a.z), far = fogged(150, d.z);
    if (height(x, z) > 0 && height(x + 1, z + 1) > 0) return;
    if (!is_shown(a, b, d, e)) return;
    ADD(depth_of(a, e) - 1, WINDOW(0x18, 0x18, 0, 0), 0x3E000000 | near, VERT(a.x, a.y), UVA(0, 0, WATER_CLUT), near,
        VERT(b.x, b.y), UVA(63, 0, WATER), far, VERT(d.x, d.y), UVA(0, 63, 0), far, VERT(e.x, e.y), UVA(63, 63, 0));
}

/* A tree that faces the camera, behind it its shadow, which takes light away. */
static void add_tree(int x, int z) {
    const int y = height(x, z);
    const struct point p = project(x * STEP, y, z * STEP);
    const int w = p.z >= NEAR ? 40 * 220 / p.z : 0, h = w * 2, depth = depth_of(p, p);
    const u32 tone = fogged(128, p.z / 2) & 0xFFFFFF;
    if (y < 8 || p.z < NEAR || p.z > FAR || p.x < -200 || p.x > 200) return;
    ADD(depth - 2, WINDOW(0, 0, 0, 0), 0x2C000000 | tone, VERT(p.x - w, p.y - h), UVA(192, 0, GROUND_CLUT(3)),
        VERT(p.x + w, p.y - h), UVA(255, 0, GROUND), VERT(p.x - w, p.y), UVA(192, 63, 0), VERT(p.x + w, p.y),
        UVA(255, 63, 0));
    ADD(depth - 1, 0xE1000600 | PAGE(0, 0, 0, 2), 0x2A303030, VERT(p.x - w, p.y), VERT(p.x, p.y - w / 3),
        VERT(p.x, p.y + w / 3), VERT(p.x + w, p.y));
}

/* A crystal of four sides that turns, lit by what it adds. */
static void add_crystal(int x, int z) {
    const struct point top = project(x * STEP, height(x, z) + 170, z * STEP);
    const int w = top.z >= NEAR ? 30 * 220 / top.z : 0, h = 2 * w;
    int k;
    if (top.z < NEAR || top.z > FAR || top.x < -200 || top.x > 200) return;
    for (k = 0; k < 4; k++) {
        const int left = w * wave(frame * 3 + k * 64) / 4096, right = w * wave(frame * 3 + k * 64 + 64) / 4096;
        ADD(depth_of(top, top) - 3, 0xE1000600 | PAGE(0, 0, 0, 1), 0x3A000000 | (0x604020 << k & 0xFFFFFF),
            VERT(top.x, top.y - h), 0x301020, VERT(top.x + left, top.y), 0x102040, VERT(top.x + right, top.y), 0x806040,
            VERT(top.x, top.y + h));
    }
}

static void add_things(void) {
    int i, j;
    for (i = 0; i <= GRID; i++)
        for (j = 0; j <= GRID; j++) {
            const int x = first_x + i, z = first_z + j, number = (x * 37 + z * 101 + x * z) & 127;
            if (number < 7) add_tree(x, z);
            if (number == 40) add_crystal(x, z);
        }
}

/* Behind all: the buffer's place, and the sky's texture on a strip that turns with the camera. */
static void add_sky(int y0, int yaw) {
    int k;
    for (k = 0; k < 6; k++)
        ADD(DEPTHS - 2, 0xE1000400 | SKY, WINDOW(0, 0, 0, 0), 0x65000000, VERT(-192 + k * 64 - (yaw & 63) + 32, -72), 0,
            XY(64, 64));
    ADD(DEPTHS - 1, 0xE3000000 | y0 << 10, 0xE4000000 | 319 | (y0 + 239) << 10, 0xE5000000 | 160 | (y0 + 120) << 11,
        0xE1000600, 0x38402818, VERT(-160, -120), 0x00402818, VERT(160, -120), 0x006E463C, VERT(-160, -24), 0x006E463C,
        VERT(160, -24), 0x606E463C, VERT(-160, -24), XY(320, 144));
}

static void add_number(int depth, int x, int y, int number) {
    for (; number || x > 150; number /= 10, x -= 8)
        ADD(depth, 0x74FFFFFF, VERT(x, y), UVA(number % 10 * 8, 64, GROUND_CLUT(4)));
}

/* Over it: a panel that darkens, numbers, a shaded bar, and icons. */
static void add_panel(void) {
    const int end = frame % 80 - 130;
    int k;
    for (k = 0; k < 8; k++)
        ADD(2, 0x7DFFFFFF, VERT(-150 + k * 20, 96), UVA(k % 4 * 16, 72, GROUND_CLUT(4)));
    add_number(2, 144, -110, frame * 100);
    add_number(2, 144, -100, camera_z);
    add_number(2, 144, -90, camera_x);
    ADD(3, 0xE1000400 | GROUND, WINDOW(0, 0, 0, 0), 0x38000040, VERT(-150, -110), 0x0000FFFF, VERT(end, -110),
        0x00000080, VERT(-150, -102), 0x0000FF00, VERT(end, -102));
    ADD(4, 0xE1000400 | GROUND, 0x62100808, VERT(-156, 90), XY(172, 28), 0x62100808, VERT(90, -114), XY(66, 36));
}

/* The 4-bit texel of this row and column: grass, sand and rock beside one another, and a tree with holes; below them
   numbers and icons. `noise` is any number. */
static u32 ground_texel(int i, int j, u32 noise) {
    static const u16 digits[10] = {0x7B6F, 0x4926, 0x73E7, 0x79E7, 0x49ED, 0x79CF, 0x7BCF, 0x4927, 0x7BEF, 0x79EF};
    const int dot = (j & 7) / 2, right = (j & 63) - 32, size = i < 48 ? 4 + i / 2 : 4;
    const u32 value = 4 + (noise >> 29) + wave(i * 12 + j * 8) / 1400;
    if (i >= 72) return (i & 15) < 2 || (j & 15) < 2 ? 15 : 1 + (((i ^ j) >> 1) & 7) + (j >> 4 & 3);
    if (i >= 64) return j < 80 && dot < 3 && i < 69 && digits[j / 8] >> ((i - 64) * 3 + dot) & 1 ? 15 : 0;
    if (j >= 192) return right < size && -right < size ? value : 0;
    if (j >= 128) return 1 + ((i >> 2 ^ (j + i / 4) >> 3) + value / 6) % 15;
    return value;
}

/* Palettes of green, sand, gray, dark green and white. */
static u32 ground_color(int palette, int i) {
    switch (palette) {
    case 0: return RGB15(3 + i / 3, 10 + i, 2);
    case 1: return RGB15(16 + i / 2, 14 + i / 2, 8 + i / 3);
    case 2: return RGB15(8 + i, 8 + i, 9 + i);
    case 3: return RGB15(2 + i / 4, 8 + i, 3);
    default: return RGB15(2 * i, 2 * i, 12 + i);
    }
}

static void load_ground(void) {
    static u32 texels[96][32], palettes[5][8];
    u32 noise = 1;
    int i, j, k;
    for (i = 0; i < 96; i++)
        for (j = 0; j < 256; j++) {
            noise = noise * 1664525 + 1013904223;
            texels[i][j / 8] |= ground_texel(i, j, noise) << 4 * (j & 7);
        }
    upload(512, 0, 64, 96, texels[0]);
    for (k = 0; k < 5; k++) {
        for (i = 1; i < 16; i++) ((u16 *)palettes[k])[i] = ground_color(k, i);
        upload(512, 480 + k, 16, 1, palettes[k]);
    }
}

static void load_sky(void) {
    static u32 cells[64][32];
    int i, j;
    for (i = 0; i < 64; i++)
        for (j = 0; j < 64; j++) {
            const int cloud = (wave(i * 9 + j * 4) + wave(j * 12 - i * 6) + wave(j * 8) + 8000) / 1000;
            const int tone = (cloud - 8) * (i < 8 ? i : i > 52 ? 64 - i : 10);
            ((u16 *)cells)[i * 64 + j] = cloud > 8 ? RGB15(7 + tone / 5, 7 + tone / 5, 12 + tone / 6) : 0;
        }
    upload(640, 0, 64, 64, cells[0]);
}

/* In each frame: 64 by 64 texels of 8 bits, and the palette turned by one. Bit 15 makes them semi-transparent. */
static void load_water(void) {
    static u32 texels[64][16], palette[128];
    int i, j;
    for (i = 0; i < 64; i++) {
        const int row = wave(i * 8 + frame * 5), shift = wave(i * 4 + frame * 2) / 128;
        for (j = 0; j < 64; j++) ((u8 *)texels)[i * 64 + j] = 128 + (row + wave(j * 12 + shift)) / 70;
    }
    for (i = 0; i < 256; i++) {
        const int red = 2 + wave(i + frame) / 2100, green = 10 + wave(i * 2 + frame) / 600;
        ((u16 *)palette)[i] = RGB15(red, green, 18 + wave(i * 3) / 500) | 0x8000;
    }
    upload(576, 0, 32, 64, texels[0]);
    upload(512, 490, 256, 1, palette);
}

int main(void) {
    int i, j;
    DPCR = 0x0FEDCBA8 | 0x08000800;
    GP1 = 0;
    screen(1, 240);
    SEND(0x02000000, 0, XY(1023, 511));
    load_ground();
    load_sky();
    GP1 = 0x03000000;
    for (frame = 0;; frame++) {
        const int y0 = frame & 1 ? 240 : 0, yaw = wave(frame) / 160;
        s = wave(yaw);
        c = wave(yaw + 64);
        camera_x = 100000 + wave(frame / 2) / 8;
        camera_z = 100000 + frame * 12;
        camera_y = 300;
        first_x = camera_x / STEP - GRID / 2 + wave(yaw) * GRID / 8192;
        first_z = camera_z / STEP;
        begin_table(frame & 1);
        project_grid();
        for (i = 0; i < GRID; i++)
            for (j = 0; j < GRID; j++) {
                add_cell(i, j);
                add_water(i, j);
            }
        add_things();
        add_panel();
        add_sky(y0, yaw);
        load_water();
        draw_table();
        vblank();
        GP1 = 0x05000000 | y0 << 10;
    }
}
