/* Draws a triangle, reads two of its pixels, and writes what is shown to example.ppm.
 *
 *     cc -std=c99 -I c c/example.c -L out -Wl,-rpath,out -lpsxgpu -o example && ./example
 */
#include <stdio.h>
#include <stdlib.h>

#include "psxgpu.h"

/* A fill of the screen, the drawing area, and a triangle with a colour at each corner. */
static const uint32_t drawing[] = {
    0x02400000, 0x00000000, 240u << 16 | 320,              /* fill 320 by 240 cells in blue */
    0xe3000000, 0xe4000000 | 239u << 10 | 319,             /* draw from (0, 0) to (319, 239) */
    0x300000ff, 20u << 16 | 160,                           /* red at (160, 20) */
    0x0000ff00, 220u << 16 | 40,                           /* green at (40, 220) */
    0x00ff0000, 220u << 16 | 280,                          /* blue at (280, 220) */
    0xc0000000, 100u << 16 | 160, 1u << 16 | 2             /* send two pixels from (160, 100) on */
};

/* Writes the shown picture. */
static int write_picture(psxgpu *gpu, const char *name) {
    uint16_t width = 0, height = 0;
    if (psxgpu_shape(gpu, &width, &height) != PSXGPU_DONE) return 0;
    size_t room = 3 * (size_t)width * height + 32, written = 0;
    uint8_t *out = (uint8_t *)malloc(room);
    FILE *file = fopen(name, "wb");
    int done = out != NULL && file != NULL && psxgpu_picture(gpu, out, room, &written) == PSXGPU_DONE
        && fwrite(out, 1, written, file) == written;
    if (file != NULL && fclose(file) != 0) done = 0;
    free(out);
    if (done) printf("picture %u by %u\n", width, height);
    return done;
}

int main(void) {
    psxgpu gpu = PSXGPU_NONE;
    uint32_t status = 0, pixels = 0;
    if (psxgpu_new(&gpu) != PSXGPU_DONE) return 5;
    psxgpu_gp1(&gpu, 0x03000000); /* show the screen */
    psxgpu_gp1(&gpu, 0x08000001); /* in 320 by 240 */
    psxgpu_gp0_words(&gpu, drawing, sizeof drawing / sizeof *drawing);
    psxgpu_status(&gpu, &status);
    psxgpu_read(&gpu, &pixels);
    printf("status %08x\npixels %08x\n", (unsigned)status, (unsigned)pixels);
    int done = write_picture(&gpu, "example.ppm");
    psxgpu_free(&gpu);
    return done ? 0 : 4;
}
