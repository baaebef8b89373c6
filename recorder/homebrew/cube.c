/* cube: an ordering table by channel 6, a linked list by channel 2, textures by blocks. Shaded, dithered, textured
   cubes, some semi-transparent, one texture that is loaded anew in each frame, and sprites in front. 320 by 240, two
   buffers. */
#ifndef FRAMES
#define FRAMES 60
#endif
#ifndef CUBES
#define CUBES 5
#endif
#define DEPTHS 256
#define ROOM (CUBES * 6 * 13 + 1024)
#include "psx.h"
#include "sine.h"
#include "table.h"

struct point { int x, y, z; };

static const signed char corner[8][3] = {
    {-1, -1, -1}, {1, -1, -1}, {-1, 1, -1}, {1, 1, -1}, {-1, -1, 1}, {1, -1, 1}, {-1, 1, 1}, {1, 1, 1}
};
static const u8 face[6][4] = {{0, 1, 2, 3}, {5, 4, 7, 6}, {4, 0, 6, 2}, {1, 5, 3, 7}, {4, 5, 0, 1}, {2, 3, 6, 7}};
static const u32 tint[8] = {0x404040, 0x8080FF, 0x80FF80, 0x80FFFF, 0xFF8080, 0xFF80FF, 0xFFFF80, 0xFFFFFF};
static const u32 page[3] = {PAGE(704, 0, 2, 0), PAGE(640, 0, 0, 1), PAGE(768, 0, 2, 3)};

/* The eight corners on the screen. */
static void turn(struct point seen[8], int angle, struct point middle, int size) {
    const int s1 = sine[angle & 255], c1 = sine[(angle + 64) & 255];
    const int s2 = sine[(angle * 3 / 2) & 255], c2 = sine[(angle * 3 / 2 + 64) & 255];
    int i;
    for (i = 0; i < 8; i++) {
        const int x = corner[i][0] * size, y = corner[i][1] * size, z = corner[i][2] * size;
        const int x1 = (x * c1 - z * s1) >> 12, z1 = (x * s1 + z * c1) >> 12;
        const int y2 = (y * c2 - z1 * s2) >> 12, z2 = (y * s2 + z1 * c2) >> 12;
        seen[i].z = z2 + middle.z;
        seen[i].x = (x1 + middle.x) * 256 / seen[i].z;
        seen[i].y = (y2 + middle.y) * 256 / seen[i].z;
    }
}

static void add_side(const struct point seen[8], int side, int semi) {
    const u8 *v = face[side];
    const struct point a = seen[v[0]], b = seen[v[1]], c = seen[v[2]], d = seen[v[3]];
    const int depth = (a.z + b.z + c.z + d.z) >> 4, last = side < 4 ? 63 : 31;
    u32 *p = room + 1;
    int i;
    if ((b.x - a.x) * (c.y - a.y) <= (b.y - a.y) * (c.x - a.x) && !semi) return;
    if (depth < 0 || depth >= DEPTHS) return;
    for (i = 0; i < 4; i++) {
        *p++ = tint[v[i]] | (i ? 0 : semi ? 0x3E000000 : 0x3C000000);
        *p++ = VERT(seen[v[i]].x, seen[v[i]].y);
        *p++ = UVA(i & 1 ? last : 0, i & 2 ? last : 0, i == 0 ? CLUT(640, 128) : i == 1 ? page[side / 2] : 0);
    }
    add(depth, 12);
}

/* Few cubes go around one another; many stand in rows. */
static void add_cube(int frame, int i) {
    struct point seen[8], middle;
    int side;
    if (CUBES < 8) {
        middle.x = sine[(i * 256 / CUBES + frame) & 255] / 20;
        middle.y = sine[(i * 256 / CUBES + frame * 2) & 255] / 34;
        middle.z = 700 + i * 60;
    } else {
        middle.x = (i % 20 - 10) * 60;
        middle.y = (i / 20 - 7) * 70;
        middle.z = 700 + i % 7 * 40;
    }
    turn(seen, frame * 2 + i * 29, middle, CUBES < 8 ? 120 : 26);
    for (side = 0; side < 6; side++) add_side(seen, side, (i + side) & 1);
}

/* In front of all: semi-transparent sprites, each behind its own draw mode. */
static void add_sprites(int frame) {
    int i;
    for (i = 0; i < 8; i++)
        ADD(i, 0xE1000600 | PAGE(640, 0, 0, i & 3), 0x66808080,
            VERT(-150 + i * 38, 80 + sine[(frame * 6 + i * 20) & 255] / 300), UVA(i * 8, 0, CLUT(640, 128)),
            XY(32, 32));
}

/* Behind all: the buffer's place, and a shaded ground. */
static void add_ground(int frame, int y0) {
    ADD(DEPTHS - 1, 0xE3000000 | y0 << 10, 0xE4000000 | 319 | (y0 + 239) << 10, 0xE5000000 | 160 | (y0 + 120) << 11,
        0xE1000600, 0x38401000, VERT(-160, -120), 0x00104000, VERT(160, -120), 0x00001040 + (frame & 63),
        VERT(-160, 120), 0x00404040, VERT(160, 120));
}

static void load_textures(void) {
    static u32 texels4[512], texels15[2048], palette[8];
    int i, j;
    for (i = 0; i < 16; i++) ((u16 *)palette)[i] = i ? RGB15(i * 2, 31 - i, 16) | (i & 3 ? 0x8000 : 0) : 0;
    for (i = 0; i < 64; i++)
        for (j = 0; j < 64; j++) {
            texels4[i * 8 + j / 8] |= (u32)(((i >> 3) ^ (j >> 3) ^ (i & j)) & 15) << 4 * (j & 7);
            ((u16 *)texels15)[i * 64 + j] = RGB15(i / 2, j / 2, (i ^ j) & 31) | ((i + j) & 16 ? 0x8000 : 0);
        }
    upload(640, 0, 16, 64, texels4);
    upload(640, 128, 16, 1, palette);
    upload(704, 0, 64, 64, texels15);
}

static void load_water(int frame) {
    static u32 water[512];
    int i, j;
    for (i = 0; i < 32; i++)
        for (j = 0; j < 32; j++)
            ((u16 *)water)[i * 32 + j] = RGB15(8, 15 + sine[(i * 16 + frame * 8) & 255] / 300,
                                               15 + sine[(j * 16 + frame * 4) & 255] / 300) | 0x8000;
    upload(768, 0, 32, 32, water);
}

int main(void) {
    int frame, i;
    DPCR = 0x0FEDCBA8 | 0x08000800;
    GP1 = 0;
    screen(1, 240);
    GP1 = 0x03000000;
    SEND(0x02000000, 0, XY(1023, 511));
    load_textures();
    for (frame = 0; frame < FRAMES; frame++) {
        const int y0 = frame & 1 ? 240 : 0;
        begin_table(frame & 1);
        for (i = 0; i < CUBES; i++) add_cube(frame, i);
        add_sprites(frame);
        add_ground(frame, y0);
        load_water(frame);
        draw_table();
        vblank();
        GP1 = 0x05000000 | y0 << 10;
    }
    return 0;
}
