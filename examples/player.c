/* A player: it reads a capture on standard input, and writes what the mode asks for. At the top of a checkout:

       cc -O2 -I recorder examples/player.c -o my_player
       ./my_player vram < examples/two-fills.capture > vram.bin
       psxgpu conform ./my_player

   Its GPU is a toy. Put your emulator in the place of toy_gpu.h: what is called here begins with `gpu_`. docs/PLAYER.md
   has the protocol. */
#include "psxgpu_capture.h"

#include "toy_gpu.h"

enum { DONE, WRONG_ARGUMENTS, REFUSED, READ_FAULT, WRITE_FAULT }; /* statuses */

static int refuse(const psxgpu_reader *in, const char *what) {
    fprintf(stderr, "player: event %llu: %s\n", (unsigned long long)(in->events + 1), what);
    return REFUSED;
}

/* Plays the events of a record. Prints what is read if `prints` is not 0. Returns the status. */
static int play(const psxgpu_reader *in, int prints) {
    uint32_t k, word;
    for (k = 0; k < psxgpu_reader_events(in); k++)
        switch (in->kind) {
        case PSXGPU_GP0: gpu_gp0(psxgpu_reader_word(in, k)); break;
        case PSXGPU_GP1: gpu_gp1(psxgpu_reader_word(in, k)); break;
        case PSXGPU_SKIP: gpu_read(); break;
        case PSXGPU_READ:
        case PSXGPU_STAT:
            word = in->kind == PSXGPU_READ ? gpu_read() : gpu_status();
            if (prints) printf("%08lx\n", (unsigned long)word);
            break;
        default: return refuse(in, "main memory and DMA are not supported");
        }
    return DONE;
}

static void write_vram(void) {
    uint32_t x, y;
    for (y = 0; y < 512; y++)
        for (x = 0; x < 1024; x++) {
            putchar(gpu_cell(x, y) & 0xFF);
            putchar(gpu_cell(x, y) >> 8);
        }
}

static void write_picture(uint32_t width, uint32_t height) {
    uint32_t row, k;
    printf("P6\n%u %u\n255\n", (unsigned)width, (unsigned)height);
    for (row = 0; row < height; row++)
        for (k = 0; k < 3 * width; k++) putchar(gpu_shown_byte(row, k));
}

/* Plays a capture and writes its output. Returns the status. */
static int run(psxgpu_reader *in, char mode) {
    int status;
    gpu_gp1(0);
    while (psxgpu_reader_next(in)) {
        if (in->version == 3) return refuse(in, "video memory of 1024 rows is not supported");
        status = play(in, mode == 'p');
        if (status) return status;
    }
    status = psxgpu_reader_status(in, stderr);
    if (status) return status;
    if (mode == 's' && !(gpu_shown_width() && gpu_shown_height())) return refuse(in, "no picture");
    if (mode == 'v') write_vram();
    if (mode == 's') write_picture(gpu_shown_width(), gpu_shown_height());
    if (mode == 'p') printf("status %08lx\n", (unsigned long)gpu_status());
    return DONE;
}

int main(int count, char **words) {
    const char *mode = count == 2 ? words[1] : "";
    psxgpu_reader in;
    int error, status;
    if (strcmp(mode, "vram") && strcmp(mode, "play") && strcmp(mode, "shot")) {
        fprintf(stderr, "usage: player vram|play|shot < CAPTURE > OUTPUT\n");
        return WRONG_ARGUMENTS;
    }
    error = psxgpu_reader_load(&in, stdin);
    if (error) fprintf(stderr, "player: %s\n", strerror(error));
    status = error ? READ_FAULT : run(&in, mode[0]);
    psxgpu_reader_free(&in);
    return fflush(stdout) || ferror(stdout) ? WRITE_FAULT : status;
}
