/* play_modes CAPTURE FOLDER: plays a capture in every mode of the library. What mode 3 writes is FOLDER/3, and the line
 * `3 CODE` is printed. For a library of another system: it needs c/psxgpu.h and C99 alone. */
#include <stdio.h>
#include <stdlib.h>
#include "psxgpu.h"

enum { MOST = 1 << 26, CELL = 20 | 30 << 16 };

/* Reads a whole file. Ends the program if it cannot. */
static uint8_t *contents(const char *path, size_t *count) {
    FILE *file = fopen(path, "rb");
    uint8_t *bytes = malloc(MOST);
    if (file == NULL || bytes == NULL) exit(2);
    *count = fread(bytes, 1, MOST, file);
    fclose(file);
    return bytes;
}

static void save(const char *folder, unsigned mode, const uint8_t *bytes, size_t count) {
    char path[1024];
    snprintf(path, sizeof path, "%s/%u", folder, mode);
    FILE *file = fopen(path, "wb");
    if (file == NULL || fwrite(bytes, 1, count, file) != count || fclose(file) != 0) exit(2);
}

int main(int argc, char **argv) {
    if (argc != 3) return 2;
    size_t count;
    uint8_t *capture = contents(argv[1], &count), *out = malloc(MOST);
    if (out == NULL) return 2;
    for (unsigned mode = PSXGPU_MODE_PLAY; mode <= PSXGPU_MODE_PIXEL; mode++) {
        psxgpu_ended ended;
        uint32_t code = psxgpu_play(mode, CELL, capture, count, out, MOST, &ended);
        save(argv[2], mode, out, ended.written);
        printf("%u %u\n", mode, (unsigned)code);
    }
    return 0;
}
