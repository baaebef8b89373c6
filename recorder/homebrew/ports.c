/* ports: all by the ports, with polls of the status; two buffers; in each frame a part is read back. 320 by 240. */
#include "psx.h"
#include "sine.h"
#ifndef FRAMES
#define FRAMES 30
#endif

/* A texture of 32 by 32 cells at (512, 0): a disc with holes around it, bit 15 in half of it. */
static void load_disc(void) {
    int i, j;
    ready_command();
    SEND(0xA0000000, XY(512, 0), XY(32, 32));
    for (i = 0; i < 32; i++)
        for (j = 0; j < 32; j += 2) {
            const int row = (i - 16) * (i - 16), left = (j - 16) * (j - 16), right = (j - 15) * (j - 15);
            const u32 color = RGB15(31 - i / 2, j, i);
            GP0 = (row + left < 200 ? color | (i & 8 ? 0x8000 : 0) : 0) | (row + right < 200 ? color : 0) << 16;
        }
}

static void triangle(int a) {
    ready_command();
    SEND(0x300000FF, VERT(sine[a & 255] / 45, sine[(a + 64) & 255] / 45), 0x0000FF00,
         VERT(sine[(a + 85) & 255] / 45, sine[(a + 149) & 255] / 45), 0x00FF0000,
         VERT(sine[(a + 170) & 255] / 45, sine[(a + 234) & 255] / 45));
}

static void disc(int a, int i) {
    ready_command();
    SEND(0xE1000400 | PAGE(512, 0, 2, i & 3), (i & 1 ? 0x66000000 : 0x64000000) | (0x808080 - 0x081008 * i),
         VERT(sine[(a * 2 + i * 32) & 255] / 40 - 16, sine[(a + 64 + i * 32) & 255] / 48 - 16), UVA(0, 0, 0),
         XY(32, 32));
}

/* Reads 16 by 8 cells of the middle, and shows a sum of all that was read as a row of dots. */
static void read_back(int y0) {
    static u32 sum;
    int i;
    ready_command();
    SEND(0xC0000000, XY(152, y0 + 116), XY(16, 8));
    ready_read();
    for (i = 0; i < 64; i++) sum = sum * 33 + GP0;
    ready_command();
    for (i = 0; i < 32; i++) SEND(sum >> i & 1 ? 0x68FFFFFF : 0x68404040, VERT(-150 + 4 * i, -110));
}

int main(void) {
    int frame, i;
    GP1 = 0;
    screen(1, 240);
    GP1 = 0x04000000;
    GP1 = 0x03000000;
    ready_command();
    SEND(0x02000000, XY(0, 0), XY(1023, 511));
    load_disc();
    for (frame = 0; frame < FRAMES; frame++) {
        const int y0 = frame & 1 ? 240 : 0;
        ready_command();
        SEND(0x02402010, XY(0, y0), XY(320, 240));
        area(0, y0, 319, y0 + 239);
        offset(160, y0 + 120);
        SEND(0xE1000600, 0xE6000000);
        triangle(frame * 4);
        for (i = 0; i < 8; i++) disc(frame * 4, i);
        read_back(y0);
        vblank();
        GP1 = 0x05000000 | y0 << 10;
    }
    return 0;
}
