/* Writes captures with psxgpu_capture.h, as C99 and as C++17: test_capture CASE FILE. test_header.py says what has to
   come out. */
#include <stdlib.h>
#ifdef NO_MEMORY
static void *no_memory(void) { return NULL; }
#define calloc(n, size) no_memory()
#endif
#ifdef INTERRUPTED
#include <errno.h>
#include <stdio.h>
/* Of four writes, a signal interrupts three, each after half of its bytes. */
static size_t interrupted(const void *from, size_t size, size_t count, FILE *file) {
    static int turns;
    if (turns++ % 4 == 3) return fwrite(from, size, count, file);
    count = fwrite(from, size, count / 2, file);
    errno = EINTR;
    return count;
}
#define fwrite interrupted
#endif
#include "psxgpu_capture.h"

static psxgpu_capture cap;
static uint16_t cells[512 * 1024];
static unsigned char ram[4 * PSXGPU_RAM_WORDS];

static void ram_word(uint32_t address, uint32_t word) { psxgpu_put_(ram + address, word); }

static int list(uint32_t madr) { return psxgpu_capture_dma(&cap, 2, madr, 0, 0x01000401, ram); }

static int blocks(uint32_t madr, uint32_t bcr, uint32_t chcr) {
    return psxgpu_capture_dma(&cap, 2, madr, bcr, chcr, ram);
}

/* A square, and two of its words and the status read back. */
static void ports(void) {
    psxgpu_capture_gp0(&cap, 0xE3000000);
    psxgpu_capture_gp0(&cap, 0xE407FFFF);
    psxgpu_capture_gp0(&cap, 0x600000FF);
    psxgpu_capture_gp0(&cap, 0x00080008);
    psxgpu_capture_gp0(&cap, 0x00040004);
    psxgpu_capture_gp1(&cap, 0x03000000);
    psxgpu_capture_gp0(&cap, 0xC0000000);
    psxgpu_capture_gp0(&cap, 0x00080008);
    psxgpu_capture_gp0(&cap, 0x00020004);
    psxgpu_capture_read(&cap);
    psxgpu_capture_read(&cap);
    psxgpu_capture_skip(&cap, 2);
    psxgpu_capture_stat(&cap);
    psxgpu_capture_stat(&cap);
    psxgpu_capture_frame(&cap);
}

/* A table by channel 6 and a list through it, twice: the second time one word is another. */
static void lists(void) {
    uint32_t k;
    psxgpu_capture_gp0(&cap, 0xE407FFFF);
    for (k = 0; k < 2; k++) {
        psxgpu_capture_dma(&cap, 6, 0x100C, 4, 0x11000002, ram);
        ram_word(0x1000, 0xFFFFFF);
        ram_word(0x1004, 0x1000);
        ram_word(0x1008, 0x2000);
        ram_word(0x100C, 0x1008);
        ram_word(0x2000, 0x03001004);
        ram_word(0x2004, 0x600000FF + k * 0xFF00);
        ram_word(0x2008, 0x00080008);
        ram_word(0x200C, 0x00020002);
        list(0x100C);
        psxgpu_capture_frame(&cap);
    }
}

/* Blocks forward, backward and over the end of main memory, into it, and back again. */
static void transfers(void) {
    uint32_t k;
    for (k = 0; k < 4; k++) ram_word(0x3000 + 4 * k, k + 1);
    ram_word(0x1FFFFC, 5);
    ram_word(0, 6);
    blocks(0x3000, 4, 0x01000001);
    blocks(0x300C, 0x00020002, 0x01000203);
    blocks(0x1FFFFC, 2, 0x01000001);
    blocks(0x3004, 2, 0x01000000);
    blocks(0x3000, 4, 0x01000001);
    psxgpu_capture_dma(&cap, 6, 4, 3, 0x01000002, ram);
}

/* Starts that are none, and those that a player refuses: how many answers were -1. */
static int refused(void) {
    int n = 0;
    ram_word(0x4000, 0x4010);
    ram_word(0x4010, 0x4000);
    n -= blocks(0x3000, 4, 0x00000001);
    n -= psxgpu_capture_dma(&cap, 3, 0x3000, 4, 0x01000001, ram);
    n -= blocks(0xFFFFFF, 0, 0x01000401);
    n -= list(0x4000);
    n -= blocks(0x3000, 4, 0x01000601);
    n -= blocks(0x3000, 4, 0x01000400);
    n -= blocks(0x3000, 0x00090000, 0x01000201);
    return n;
}

static void state(void) {
    static const uint32_t settings[6] = {0x600, 1, 2, 0x7FFFF, 3, 0}, gp1[2] = {0x08000001, 0x03000000};
    uint32_t k;
    for (k = 0; k < 512 * 1024; k++) cells[k] = (uint16_t)(k * 40503u >> 8);
    psxgpu_capture_state(&cap, cells, settings, gp1, 2);
}

/* More than one file's room, or more than a small disk. */
static void many(void) {
    uint32_t k;
    for (k = 0; k < 100000; k++) {
        psxgpu_capture_gp0(&cap, k & 0xFFFFFF);
        if (k % 1000 == 999) psxgpu_capture_frame(&cap);
    }
    state();
    lists();
}

int main(int count, char **words) {
    int error;
    if (count != 3) return 9;
    error = psxgpu_capture_open(&cap, words[2]);
    if (error) printf("open %d\n", error);
    switch (words[1][0]) {
    case 'p': ports(); break;
    case 'l': lists(); break;
    case 't': transfers(); break;
    case 'r': printf("refused %d\n", refused()); break;
    case 's': state(); break;
    case 'm': many(); break;
    case 'k': ports(); ports(); abort();
    default: break;
    }
    error = psxgpu_capture_close(&cap);
    printf("close %d %lu %d\n", error, (unsigned long)cap.bytes, psxgpu_capture_close(&cap));
    return 0;
}
