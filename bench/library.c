/* A player over the library, for bench/run.py:
 *
 *     library [words | notes] vram < capture > dump
 *
 * plays a capture of version 1 whose records are Gp0 alone: each record by one call, with `words` by one for each word,
 * and with `notes` by calls that return notes, each for at most 65,536 words. The capture is mapped, so reading it
 * takes almost no time. */
#define _POSIX_C_SOURCE 200809L
#include <stdint.h>
#include <stdio.h>
#include <stdlib.h>
#include <string.h>
#include <sys/mman.h>
#include <sys/stat.h>

#include "psxgpu.h"

enum { WORDS = 65536 };

static uint8_t out[PSXGPU_VRAM_ROOM];
static psxgpu_note notes[WORDS];

static void play_words(psxgpu *gpu, const uint32_t *words, size_t count) {
    for (size_t k = 0; k < count; k++) psxgpu_gp0(gpu, words[k]);
}

static void play_noted(psxgpu *gpu, const uint32_t *words, size_t count) {
    for (size_t some, told; count > 0; words += some, count -= some) {
        some = count < WORDS ? count : WORDS;
        psxgpu_gp0_notes(gpu, words, some, notes, WORDS, &told);
    }
}

int main(int argc, char **argv) {
    const char *way = argc > 2 ? argv[1] : "blocks";
    struct stat told;
    if (fstat(0, &told) != 0) return 3;
    const uint32_t *at = mmap(NULL, (size_t)told.st_size, PROT_READ, MAP_PRIVATE, 0, 0);
    if (at == MAP_FAILED) return 3;
    psxgpu gpu = PSXGPU_NONE;
    if (psxgpu_new(&gpu) != 0) return 5;
    at += 2;
    for (uint32_t tag; (tag = *at++) != 0;) {
        size_t count = tag & 0xffffff;
        if (tag >> 24 != 2) return 2;
        if (strcmp(way, "words") == 0) play_words(&gpu, at, count);
        else if (strcmp(way, "notes") == 0) play_noted(&gpu, at, count);
        else psxgpu_gp0_words(&gpu, at, count);
        at += count;
    }
    size_t written;
    if (psxgpu_vram(&gpu, out, sizeof out, &written) != 0) return 5;
    psxgpu_free(&gpu);
    return fwrite(out, 1, written, stdout) == written ? 0 : 4;
}
