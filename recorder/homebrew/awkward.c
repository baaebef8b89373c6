/* awkward: what real programs do besides. Polylines, settings in the midst, texture windows, masks, copies onto
   themselves, reads into main memory by DMA and by the port, packets half by the port and half by DMA, information
   words, an interrupt, 640 by 480 interlaced, 24 bits a pixel. */
#include "psx.h"
#include "sine.h"

static u32 shot[1024], block[16], row[240];
static u32 sum; /* of all that was read */

static void star(int frame) {
    int i;
    GP0 = 0x48FFFFFF;
    for (i = 0; i < 6; i++)
        GP0 = VERT(160 + sine[(i * 102 + frame) & 255] / 60, 120 + sine[(i * 102 + frame + 64) & 255] / 60);
    GP0 = 0x55555555;
}

/* A shaded, semi-transparent polyline that ends with 50005000h, and a shaded line. */
static void lines(int frame) {
    int i;
    star(frame);
    SEND(0x5A0000FF, VERT(20, 20));
    for (i = 1; i < 9; i++)
        SEND((0x00010101u * (i * 28)) ^ 0x00FF00, VERT(20 + i * 30, i & 1 ? 60 : 20 + frame % 40));
    GP0 = 0x50005000;
    SEND(0x50FF0000, VERT(0, 239), 0x0000FF, VERT(319, 180));
}

/* 64 rows of 8-bit texels at (512, 256), their palette at (512, 511). The head comes by the port, the row by DMA. */
static void load_texture(void) {
    int i, j;
    SEND(0xA0000000, XY(512, 511), XY(256, 1));
    for (i = 0; i < 256; i += 2) {
        const u32 color = RGB15(i & 31, i >> 3 & 31, 31 - (i >> 3));
        GP0 = (i ? color : 0) | (color | 0x8000) << 16;
    }
    for (i = 0; i < 64; i++) {
        for (j = 0; j < 16; j++) block[j] = (u32)((i * 4 + j * 16) & 255) * 0x01010101 + 0x03020100;
        ready_command();
        SEND(0xA0000000, XY(512, 256 + i), XY(32, 1));
        dma_in(block, 16);
    }
}

/* Sprites and quads through texture windows, with settings between two packets. */
static void windows(int frame) {
    int i;
    for (i = 0; i < 6; i++) {
        GP0 = i & 1 ? WINDOW(0x1E, 0x1C, 2, 4) : WINDOW(0, 0, 0, 0);
        GP0 = 0xE1000200 | PAGE(512, 256, 1, i & 3) | (i & 4) << 10 | (i & 2) << 12;
        SEND(i & 1 ? 0x77808080 : 0x74A08060, VERT(30 + i * 40, 100 + frame), UVA(i * 4 + 1, 8, CLUT(512, 511)));
        area(0, 0, 319 - 20 * (i & 1), 239);
        SEND(0x2D808080, VERT(20 + i * 48, 150), UVA(0, 0, CLUT(512, 511)), VERT(60 + i * 48, 150 + i),
             UVA(63, 0, PAGE(512, 256, 1, i & 3)), VERT(20 + i * 48, 190 + i), UVA(0, 63, 0), VERT(60 + i * 48, 190),
             UVA(63, 63, 0));
        GP0 = WINDOW(0, 0, 0, 0);
    }
    area(0, 0, 319, 239);
}

/* A bar with bit 15 forced, then what is kept out by it, and a copy that does both; and a copy onto itself. */
static void masks(int frame) {
    SEND(0xE6000001, 0x6000FFFF, VERT(200, 60), XY(30, 30));
    SEND(0xE6000002, 0x62FF00FF, VERT(190 + frame % 20, 50), XY(30, 30));
    SEND(0xE6000003, 0x80000000, XY(10, 10), XY(210, 70), XY(40, 40));
    SEND(0xE6000000, 0x80000000, XY(100, 200), XY(108, 204), XY(64, 16));
}

/* A quad half by the port and half by DMA. */
static void split_quad(int frame) {
    ready_command();
    SEND(0x280080FF, VERT(250, 10), VERT(300, 20));
    block[0] = VERT(240, 50);
    block[1] = VERT(310, 60 + frame % 8);
    dma_in(block, 2);
}

/* Out into main memory by DMA and in again elsewhere; an odd number of cells by the port; information words. */
static void reads(int frame) {
    int i;
    ready_command();
    SEND(0xC0000000, XY(160, 100), XY(64, 32));
    ready_read();
    dma_out(shot, 1024);
    for (i = 0; i < 1024; i++) sum = sum * 33 + shot[i];
    ready_command();
    SEND(0xA0000000, XY(600, 10), XY(64, 32));
    dma_in(shot, 1024);
    ready_command();
    GP1 = 0x04000000;
    SEND(0xC0000000, XY(100 + frame, 100), XY(7, 3));
    ready_read();
    for (i = 0; i < 11; i++) sum = sum * 33 + GP0;
    GP1 = 0x10000003;
    sum += GP0;
    GP1 = 0x10000005;
    sum += GP0;
}

static void draw_frame(int frame) {
    ready_command();
    SEND(0x02201008, XY(0, 0), XY(320, 240), 0xE6000000);
    lines(frame);
    windows(frame);
    masks(frame);
    split_quad(frame);
    reads(frame);
    vblank();
    GP1 = 0x05000000;
}

static void interrupt(void) {
    GP0 = 0x1F000000;
    sum += GP1;
    GP1 = 0x02000000;
    sum += GP1;
}

/* 640 by 480, interlaced, both fields drawn. */
static void interlaced(int frame) {
    ready_command();
    SEND(0xE1000600, 0x38000000 + 0x101010 * frame, VERT(0, 0), 0x0000C0, VERT(639, 0), 0x00C000, VERT(0, 479),
         0xC00000, VERT(639, 479));
    lines(frame * 3);
    vblank();
    sum += GP1 >> 31;
}

/* 24 bits a pixel: 320 by 240 pixels are 480 cells wide. */
static void deep(int frame) {
    int i, j;
    for (i = 0; i < 240; i++) {
        u8 *p = (u8 *)row;
        for (j = 0; j < 320; j++) {
            *p++ = j * 4 / 5;
            *p++ = i + frame * 4;
            *p++ = (i ^ j) + frame * 16;
        }
        ready_command();
        SEND(0xA0000000, XY(0, i), XY(480, 1));
        dma_in(row, 240);
    }
    vblank();
    GP1 = 0x05000000;
}

int main(void) {
    int frame;
    DPCR = 0x0FEDCBA8 | 0x08000800;
    GP1 = 0;
    GP1 = 0x10000007; /* the GPU's type */
    sum = GP0;
    screen(1, 240);
    GP1 = 0x03000000;
    SEND(0x02000000, 0, XY(1023, 511));
    area(0, 0, 319, 239);
    offset(0, 0);
    GP0 = 0xE1000200;
    load_texture();
    for (frame = 0; frame < 40; frame++) draw_frame(frame);
    interrupt();
    screen(0x27, 240);
    GP1 = 0x05000000;
    area(0, 0, 639, 479);
    for (frame = 0; frame < 10; frame++) interlaced(frame);
    screen(0x11, 240);
    for (frame = 0; frame < 4; frame++) deep(frame);
    GP1 = 0x01000000;
    GP1 = 0x04000000;
    SEND(0xA0000000, XY(1020, 510), XY(2, 1), sum); /* so that a difference of what was read can be seen */
    return 0;
}
