/* psxgpu_draw: a GPU plugin of the PSEmu Pro interface (pcsxr and its kin) that draws with the machine of libpsxgpu.
   `make plugin` builds it. It also is what recorder/record takes as --plugin. Settings, from the environment:

       PSXGPU_WINDOW   0: no window, and as fast as it goes; else the picture, 60 or 50 times a second (1)

   GPUopen sets *display to an X display. pcsxr reads its keys there, and breaks down if a plugin sets none.

   All drawing is done at once, so the status word never says that the GPU is busy. Its bit 31, which a machine without
   time does not have, changes with each vertical blank. */
#include <stdio.h>
#include <stdlib.h>
#include <string.h>
#include <time.h>
#include "drawing.h"
#include "psxgpu.h"
#include "window.h"

enum { RAM_WORDS = 524288, END_OF_LIST = 0x800000, ROWS = 512, COLUMNS = 1024, HALF = 512, BLOCK = 256 };

static psxgpu gpu = PSXGPU_NONE;
static uint32_t control[64]; /* the last word of each opcode of GP1 */
static uint32_t field;       /* bit 31 of the status word */

#pragma GCC visibility push(default)

char *PSEgetLibName(void) { return (char *)"psxgpu_draw"; }
unsigned long PSEgetLibType(void) { return 2; }
unsigned long PSEgetLibVersion(void) { return 1 << 16 | 1 << 8; }

long GPUinit(void) { return psxgpu_new(&gpu) == PSXGPU_DONE ? 0 : -1; }

long GPUshutdown(void) {
    psxgpu_free(&gpu);
    return 0;
}

long GPUopen(unsigned long *display, char *caption, char *config) {
    const char *setting = getenv("PSXGPU_WINDOW");
    (void)config;
    *display = (unsigned long)window_open(caption, !setting || strcmp(setting, "0"));
    if (!*display) fprintf(stderr, "psxgpu_draw: no X display\n");
    return *display ? 0 : -1;
}

long GPUclose(void) {
    window_close();
    return 0;
}

void GPUwriteData(uint32_t word) { psxgpu_gp0(&gpu, word); }
void GPUwriteDataMem(uint32_t *words, int n) { if (n > 0) psxgpu_gp0_words(&gpu, words, (size_t)n); }

void GPUwriteStatus(uint32_t word) {
    const uint32_t opcode = word >> 24 & 0x3F;
    if (!opcode) memset(control, 0, sizeof control);
    control[opcode] = word;
    psxgpu_gp1(&gpu, word);
}

uint32_t GPUreadData(void) {
    uint32_t word = 0;
    psxgpu_read(&gpu, &word);
    return word;
}

void GPUreadDataMem(uint32_t *words, int n) {
    while (n-- > 0) *words++ = GPUreadData();
}

uint32_t GPUreadStatus(void) {
    uint32_t word = 0;
    psxgpu_status(&gpu, &word);
    return word ^ field;
}

/* A list that does not end is drawn once around. */
long GPUdmaChain(uint32_t *ram, uint32_t first) {
    static uint32_t seen[RAM_WORDS], walk; /* the last walk that met a node */
    uint32_t at = first & 0xFFFFFF;
    walk++;
    while (!(at & END_OF_LIST)) {
        const uint32_t node = at / 4 % RAM_WORDS, n = ram[node] >> 24, most = RAM_WORDS - 1 - node;
        if (seen[node] == walk) return -1;
        seen[node] = walk;
        psxgpu_gp0_words(&gpu, ram + node + (n && most ? 1 : 0), n < most ? n : most);
        if (n > most) psxgpu_gp0_words(&gpu, ram, n - most);
        at = ram[node] & 0xFFFFFF;
    }
    return 0;
}

/* Waits until the next vertical blank is due. */
static void pace(void) {
    static struct timespec next;
    struct timespec now;
    clock_gettime(CLOCK_MONOTONIC, &now);
    next.tv_nsec += 1000000000 / (control[8] & 8 ? 50 : 60);
    if (next.tv_nsec >= 1000000000) next.tv_sec++, next.tv_nsec -= 1000000000;
    if (next.tv_sec < now.tv_sec - 1 || next.tv_sec > now.tv_sec + 1) next = now; /* at first, and after a pause */
    clock_nanosleep(CLOCK_MONOTONIC, TIMER_ABSTIME, &next, NULL);
}

void GPUupdateLace(void) {
    static uint8_t rgba[4 * 1024 * 1024];
    uint16_t width, height;
    size_t written;
    field ^= 0x80000000;
    if (!window_is_open()) return;
    if (psxgpu_shape(&gpu, &width, &height) == PSXGPU_DONE
        && psxgpu_picture_rgba(&gpu, rgba, sizeof rgba, &written) == PSXGPU_DONE)
        window_show(rgba, width, height);
    pace();
}

static void save(struct freeze *state) {
    uint32_t registers[PSXGPU_REGISTER_WORDS] = {0}, k;
    size_t written;
    state->version = 1;
    state->status = GPUreadStatus();
    memcpy(state->control, control, sizeof control);
    psxgpu_registers(&gpu, registers, PSXGPU_REGISTER_WORDS);
    for (k = 0; k < 6; k++) state->control[0xE1 + k] = (0xE1 + k) << 24 | registers[k];
    psxgpu_vram(&gpu, (uint8_t *)state->cells, 2 * ROWS * COLUMNS, &written);
}

/* Loads a quarter of video memory. */
static void load_cells(const uint16_t *cells, uint32_t left, uint32_t top) {
    const uint32_t head[3] = {0xA0000000, top << 16 | left, BLOCK << 16 | HALF};
    uint32_t row[HALF / 2], y, x;
    psxgpu_gp0_words(&gpu, head, 3);
    for (y = top; y < top + BLOCK; y++) {
        for (x = 0; x < HALF / 2; x++) {
            const uint16_t *pair = cells + COLUMNS * y + left + 2 * x;
            row[x] = pair[0] | (uint32_t)pair[1] << 16;
        }
        psxgpu_gp0_words(&gpu, row, HALF / 2);
    }
}

/* A state of another plugin has no E2h to E5h, and of E1h and E6h what the status word has. */
static void load(const struct freeze *state) {
    static const unsigned char order[6] = {8, 6, 7, 5, 4, 3};
    uint32_t k;
    psxgpu_clear(&gpu);
    for (k = 0; k < 4; k++) load_cells(state->cells, k % 2 * HALF, k / 2 * BLOCK);
    if (state->control[0xE1] >> 24 == 0xE1) psxgpu_gp0_words(&gpu, state->control + 0xE1, 6);
    else {
        psxgpu_gp0(&gpu, 0xE1000000 | (state->status & 0x7FF));
        psxgpu_gp0(&gpu, 0xE6000000 | (state->status >> 11 & 3));
    }
    memset(control, 0, sizeof control);
    for (k = 0; k < 6; k++)
        if (state->control[order[k]]) GPUwriteStatus(state->control[order[k]]);
}

long GPUfreeze(uint32_t what, struct freeze *state) {
    if (what == 1) save(state);
    else if (what == 0) load(state);
    return 1;
}

long GPUtest(void) { return 0; }
void GPUabout(void) {}
long GPUconfigure(void) { return 0; }
void GPUkeypressed(int key) { (void)key; }
