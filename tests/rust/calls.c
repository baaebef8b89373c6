/* Does the calls of a script with psxgpu_capture.h: calls FILE < CALLS. A line is a call and its arguments in
   hexadecimal digits; `poke` writes a word of the emulator's main memory. The crate's driver does the same calls. */
#include "psxgpu_capture.h"

enum { ARGUMENTS = 8 };

static psxgpu_capture cap;
static uint16_t cells[512 * 1024];
static unsigned char ram[4 * PSXGPU_RAM_WORDS];

static void state(const uint32_t *given, size_t count) {
    static const uint32_t settings[6] = {0x600, 1, 2, 0x7FFFF, 0xFFFFFFFFu, 3};
    uint32_t k;
    for (k = 0; k < 512 * 1024; k++) cells[k] = (uint16_t)(k * given[0] >> 8);
    psxgpu_capture_state(&cap, cells, settings, given + 1, count - 1);
}

/* Returns 1 for a start of DMA that a player would refuse, else 0. */
static int do_call(const char *call, const uint32_t *given, size_t count) {
    if (!strcmp(call, "gp0")) psxgpu_capture_gp0(&cap, given[0]);
    else if (!strcmp(call, "gp1")) psxgpu_capture_gp1(&cap, given[0]);
    else if (!strcmp(call, "read")) psxgpu_capture_read(&cap);
    else if (!strcmp(call, "skip")) psxgpu_capture_skip(&cap, given[0]);
    else if (!strcmp(call, "stat")) psxgpu_capture_stat(&cap);
    else if (!strcmp(call, "frame")) psxgpu_capture_frame(&cap);
    else if (!strcmp(call, "flush")) psxgpu_capture_flush(&cap);
    else if (!strcmp(call, "poke")) psxgpu_put_(ram + given[0] / 4 % PSXGPU_RAM_WORDS * 4, given[1]);
    else if (!strcmp(call, "state")) state(given, count);
    else return -psxgpu_capture_dma(&cap, given[0], given[1], given[2], given[3], ram);
    return 0;
}

int main(int count, char **words) {
    char line[128];
    int refused = 0;
    if (count != 2 || psxgpu_capture_open(&cap, words[1])) return 9;
    while (fgets(line, sizeof line, stdin)) {
        uint32_t given[ARGUMENTS] = {0};
        size_t n = 0;
        char *call = strtok(line, " \n"), *word;
        while (n < ARGUMENTS && (word = strtok(NULL, " \n")) != NULL) given[n++] = (uint32_t)strtoul(word, NULL, 16);
        refused += do_call(call, given, n);
    }
    if (psxgpu_capture_close(&cap)) return 9;
    printf("refused %d bytes %lu\n", refused, (unsigned long)cap.bytes);
    return 0;
}
