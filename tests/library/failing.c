/* Lets each allocation of each call fail in turn, and checks the result: NO_MEMORY, the machine and the buffer
 * unchanged, no output kept or passed on, nothing leaked. Linked with --wrap=malloc, --wrap=realloc and --wrap=free, so
 * that this file receives the calls of the library. Writes a line for each call that was tried. */
#include <stdio.h>
#include <stdlib.h>
#include <string.h>

#include "psxgpu.h"

/* ---- malloc, as the library sees it */

static size_t calls, failing, blocks; /* allocations so far; which of them fails, from 1; blocks not freed */

void *__real_malloc(size_t size);
void *__real_realloc(void *at, size_t size);
void __real_free(void *at);

void *__wrap_malloc(size_t size) {
    if (++calls == failing) return NULL;
    void *at = __real_malloc(size);
    blocks += at != NULL;
    return at;
}

void *__wrap_realloc(void *at, size_t size) { return ++calls == failing ? NULL : __real_realloc(at, size); }

void __wrap_free(void *at) {
    blocks -= at != NULL;
    __real_free(at);
}

/* ---- the calls, each with a machine in the midst of its work */

enum { ROOM = PSXGPU_SAVE_ROOM, FILL = 0x5a };

static const uint32_t scene[] = { 0x02802010, 0, 240u << 16 | 320,         /* a fill */
                                  0xe3000000, 0xe407ffff,                 /* the drawing area */
                                  0x300000ff, 8, 0x00ff00, 64u << 16 | 8, /* the beginning of a triangle */
                                  0xff0000 };
static uint8_t out[ROOM], snapshot[ROOM];
static size_t snapshot_length;
static psxgpu_ended ended;
static size_t written; /* the count of bytes that a call reports */
static size_t noted;   /* the count of notes */

static uint32_t try_new(psxgpu *gpu) {
    (void)gpu;
    psxgpu other = PSXGPU_NONE;
    uint32_t code = psxgpu_new(&other);
    psxgpu_free(&other);
    return code;
}

static uint32_t try_clear(psxgpu *gpu) { return psxgpu_clear(gpu); }

static uint32_t try_gp0(psxgpu *gpu) { return psxgpu_gp0(gpu, 64u << 16 | 64); }

static uint32_t try_words(psxgpu *gpu) { return psxgpu_gp0_words(gpu, scene, sizeof scene / sizeof *scene); }

static uint32_t try_notes(psxgpu *gpu) {
    static psxgpu_note notes[sizeof scene / sizeof *scene];
    return psxgpu_gp0_notes(gpu, scene, sizeof scene / sizeof *scene, notes, sizeof notes / sizeof *notes, &noted);
}

static uint32_t try_ram(psxgpu *gpu) { return psxgpu_ram(gpu, 0x1000, scene, sizeof scene / sizeof *scene); }

static uint32_t try_dma(psxgpu *gpu) { return psxgpu_dma(gpu, 6, 0x100c, 4, 0x11000002, &ended); }

static uint32_t try_vram(psxgpu *gpu) { return psxgpu_vram(gpu, out, ROOM, &written); }

static uint32_t try_picture(psxgpu *gpu) { return psxgpu_picture(gpu, out, ROOM, &written); }

static uint32_t try_rgba(psxgpu *gpu) { return psxgpu_picture_rgba(gpu, out, ROOM, &written); }

static uint32_t try_save(psxgpu *gpu) { return psxgpu_save(gpu, out, ROOM, &written); }

static uint32_t try_load(psxgpu *gpu) { return psxgpu_load(gpu, snapshot, snapshot_length, &ended); }

static uint32_t try_play(psxgpu *gpu) {
    (void)gpu;
    uint32_t code = psxgpu_play(PSXGPU_MODE_VRAM, 0, snapshot, snapshot_length, out, ROOM, &ended);
    written = ended.written;
    return code;
}

static uint32_t try_play_size(psxgpu *gpu) {
    (void)gpu;
    return psxgpu_play_size(PSXGPU_MODE_SHOT, 0, snapshot, snapshot_length, &ended);
}

static uint32_t try_play_output(psxgpu *gpu) {
    (void)gpu;
    psxgpu_output output = PSXGPU_OUTPUT_NONE;
    uint32_t code = psxgpu_play_output(PSXGPU_MODE_VRAM, 0, snapshot, snapshot_length, &output, &ended);
    written = psxgpu_output_copy(&output, 0, out, ROOM);
    int is_right = code == 0 ? written == ended.written : output.at == NULL && output.open == 0 && ended.written == 0;
    psxgpu_output_free(&output);
    return is_right ? code : PSXGPU_OPEN;
}

static int take(void *user, const uint8_t *bytes, size_t count) {
    (void)user;
    memcpy(out + written, bytes, count);
    written += count;
    return 0;
}

static uint32_t try_play_to(psxgpu *gpu) {
    (void)gpu;
    uint32_t code = psxgpu_play_to(PSXGPU_MODE_VRAM, 0, snapshot, snapshot_length, take, NULL, &ended);
    return written == (code == 0 ? PSXGPU_VRAM_ROOM / 2 : 0) && written == ended.written ? code : PSXGPU_SINK_REFUSED;
}

static const struct trial {
    const char *name;
    uint32_t (*call)(psxgpu *);
} trials[] = { { "new", try_new },       { "clear", try_clear },         { "gp0", try_gp0 },
               { "gp0_words", try_words }, { "gp0_notes", try_notes },     { "ram", try_ram },
               { "dma", try_dma },       { "vram", try_vram },           { "picture", try_picture },
               { "picture_rgba", try_rgba }, { "save", try_save },       { "load", try_load },
               { "play", try_play },     { "play_size", try_play_size }, { "play_output", try_play_output },
               { "play_to", try_play_to } };

/* ---- what is checked */

static int failures;

static void expect(int holds, const char *name, size_t at, const char *what) {
    if (holds) return;
    failures++;
    printf("%s, allocation %zu: %s\n", name, at, what);
}

static void open_scene(psxgpu *gpu) {
    psxgpu_new(gpu);
    psxgpu_gp1(gpu, 0x03000000);
    psxgpu_gp0_words(gpu, scene, sizeof scene / sizeof *scene);
}

static int is_filled(const uint8_t *bytes, size_t count) {
    for (size_t k = 0; k < count; k++)
        if (bytes[k] != FILL) return 0;
    return 1;
}

/* Repeats the call with each of its allocations failing, until `at` is larger than their number. */
static void try_all(const struct trial *trial) {
    static uint8_t before[ROOM], after[ROOM];
    for (size_t at = 1;; at++) {
        size_t length = 0, held, had = blocks;
        psxgpu gpu = PSXGPU_NONE;
        open_scene(&gpu);
        psxgpu_save(&gpu, before, ROOM, &length);
        memset(out, FILL, ROOM);
        written = 0, held = blocks, calls = 0, failing = at;
        uint32_t code = trial->call(&gpu);
        int reached = calls >= failing;
        failing = 0;
        if (reached) {
            expect(code == PSXGPU_NO_MEMORY, trial->name, at, "another answer than no memory");
            expect(blocks == held, trial->name, at, "blocks are left");
            expect(is_filled(out + written, ROOM - written), trial->name, at, "more of the room was written than is said");
            psxgpu_save(&gpu, after, ROOM, &length);
            expect(memcmp(before, after, length) == 0, trial->name, at, "the machine was changed");
        }
        psxgpu_free(&gpu);
        expect(blocks == had, trial->name, at, "blocks are left at the end");
        if (!reached) {
            expect(code == 0, trial->name, at, "it is refused with all its memory");
            printf("%s: %zu allocations\n", trial->name, at - 1);
            return;
        }
    }
}

int main(void) {
    psxgpu gpu = PSXGPU_NONE;
    open_scene(&gpu);
    psxgpu_save(&gpu, snapshot, ROOM, &snapshot_length);
    psxgpu_free(&gpu);
    for (size_t k = 0; k < sizeof trials / sizeof *trials; k++) try_all(&trials[k]);
    printf("%d failures\n", failures);
    return failures != 0;
}
