/* outputs CAPTURE..: in each mode, the size of the output, the output that a handle has, and what a sink receives are
 * those of psxgpu_play; so is how the call ends, also of captures that break off. Then sinks that refuse, and handles.
 * Prints one line for each failure. */
#include <stdio.h>
#include <stdlib.h>
#include <string.h>

#include "psxgpu.h"

enum { MOST = 1 << 26, CELL = 20 | 30 << 16, MODES = PSXGPU_MODE_PIXEL + 1, STEP = 4099 };

static int failures;
static const char *name;

static void expect(int holds, unsigned mode, const char *what) {
    if (holds) return;
    failures++;
    printf("%s, mode %u: %s\n", name, mode, what);
}

/* ---- a sink that keeps what it receives, and refuses a piece */

typedef struct taken {
    uint8_t *bytes;
    size_t count, calls, refusing; /* bytes; calls so far; which call is refused, from 1; 0: none */
} taken;

static int take(void *user, const uint8_t *bytes, size_t count) {
    taken *it = (taken *)user;
    if (count == 0 || count > MOST - it->count) exit(3);
    if (++it->calls == it->refusing) return -1;
    memcpy(it->bytes + it->count, bytes, count);
    it->count += count;
    return 0;
}

/* ---- the three calls against psxgpu_play */

typedef struct capture {
    const uint8_t *bytes;
    size_t length;
} capture;

static uint8_t *room(void) {
    uint8_t *bytes = (uint8_t *)malloc(MOST);
    if (bytes == NULL) exit(5);
    return bytes;
}

static int is_same_end(const psxgpu_ended *one, const psxgpu_ended *two) {
    return one->written == two->written && one->event == two->event && one->place == two->place &&
           one->word == two->word && one->code == two->code;
}

static void try_size(unsigned mode, capture from, const psxgpu_ended *wanted, uint8_t *out) {
    psxgpu_ended ended;
    uint32_t code = psxgpu_play_size(mode, CELL, from.bytes, from.length, &ended);
    expect(code == wanted->code, mode, "another code of a size");
    expect(is_same_end(&ended, wanted), mode, "the size is not that of the output");
    expect(psxgpu_play(mode, CELL, from.bytes, from.length, out, ended.written, &ended) == wanted->code, mode,
           "the size does not suffice");
}

static void try_output(unsigned mode, capture from, const psxgpu_ended *wanted, const uint8_t *due) {
    static uint8_t piece[STEP];
    psxgpu_output output = PSXGPU_OUTPUT_NONE;
    psxgpu_ended ended;
    size_t at = 0, count;
    psxgpu_play_output(mode, CELL, from.bytes, from.length, &output, &ended);
    expect(is_same_end(&ended, wanted), mode, "a handle ends otherwise");
    while ((count = psxgpu_output_copy(&output, at, piece, STEP)) != 0) {
        expect(at + count <= wanted->written && memcmp(piece, due + at, count) == 0, mode, "a handle has other bytes");
        at += count;
    }
    expect(at == wanted->written, mode, "a handle has another number of bytes");
    psxgpu_output_free(&output);
    expect(output.at == NULL && output.open == 0, mode, "a freed output is not PSXGPU_OUTPUT_NONE");
}

static void try_sink(unsigned mode, capture from, const psxgpu_ended *wanted, const uint8_t *due, taken *it) {
    psxgpu_ended ended;
    it->count = it->calls = it->refusing = 0;
    expect(psxgpu_play_to(mode, CELL, from.bytes, from.length, take, it, &ended) == wanted->code, mode,
           "another code of a sink");
    expect(is_same_end(&ended, wanted), mode, "a sink ends otherwise");
    expect(it->count == wanted->written && memcmp(it->bytes, due, it->count) == 0, mode, "a sink has other bytes");
}

/* The call of a number is refused: no later one is made, and what was taken before is counted. */
static void try_refusal(unsigned mode, capture from, const uint8_t *due, taken *it, size_t refusing) {
    psxgpu_ended ended;
    it->count = it->calls = 0, it->refusing = refusing;
    expect(psxgpu_play_to(mode, CELL, from.bytes, from.length, take, it, &ended) == PSXGPU_SINK_REFUSED, mode,
           "a refusal has another code");
    expect(it->calls == refusing, mode, "a sink that refused is called again");
    expect(ended.written == it->count, mode, "a refusal counts other bytes than those that were taken");
    expect(memcmp(it->bytes, due, it->count) == 0, mode, "bytes before a refusal are others");
    expect(ended.code == PSXGPU_SINK_REFUSED && ended.event == 0 && ended.place == 0 && ended.word == 0, mode,
           "a refusal has details");
}

static void try_mode(unsigned mode, capture from, uint8_t *out, taken *it) {
    psxgpu_ended wanted;
    if (psxgpu_play(mode, CELL, from.bytes, from.length, out, MOST, &wanted) == PSXGPU_NO_ROOM) exit(3);
    try_output(mode, from, &wanted, out);
    try_sink(mode, from, &wanted, out, it);
    size_t calls = it->calls;
    if (calls > 0) try_refusal(mode, from, out, it, 1);
    if (calls > 1) try_refusal(mode, from, out, it, 2);
    if (calls > 2) try_refusal(mode, from, out, it, calls);
    try_size(mode, from, &wanted, out);
}

/* ---- handles and modes */

static void try_handles(capture from) {
    psxgpu_output output = PSXGPU_OUTPUT_NONE;
    psxgpu_ended ended;
    uint8_t byte = 0x5a;
    expect(psxgpu_output_copy(&output, 0, &byte, 1) == 0 && byte == 0x5a, 0, "no output has a byte");
    psxgpu_output_free(&output);
    uint32_t code = psxgpu_play_output(MODES, 0, from.bytes, from.length, &output, &ended);
    expect(code == PSXGPU_BAD_MODE, MODES, "it is a mode");
    expect(output.at == NULL && output.open == 0 && ended.written == 0, MODES, "no mode leaves an output");
    expect(psxgpu_play_size(MODES, 0, from.bytes, from.length, &ended) == PSXGPU_BAD_MODE, MODES, "a size of no mode");
    code = psxgpu_play_to(MODES, 0, from.bytes, from.length, take, NULL, &ended);
    expect(code == PSXGPU_BAD_MODE, MODES, "it is played");
    expect(psxgpu_play_output(0, 0, NULL, 0, &output, &ended) == PSXGPU_TRUNCATED, 0, "no byte is played");
    expect(psxgpu_play_output(0, 0, NULL, 0, &output, &ended) == PSXGPU_OPEN, 0, "an open handle is taken");
    expect(ended.code == PSXGPU_OPEN && ended.written == 0, 0, "a refusal of an open handle has details");
    expect(psxgpu_output_copy(&output, 0, NULL, 0) == 0, 0, "no byte of no bytes is copied");
    psxgpu_output_free(&output);
}

static size_t read_file(const char *path, uint8_t *bytes) {
    FILE *file = fopen(path, "rb");
    if (file == NULL) exit(5);
    size_t count = fread(bytes, 1, MOST, file);
    fclose(file);
    return count;
}

int main(int argc, char **argv) {
    uint8_t *bytes = room(), *out = room();
    taken it = { room(), 0, 0, 0 };
    for (int k = 1; k < argc; k++) {
        name = argv[k];
        size_t length = read_file(name, bytes);
        for (unsigned mode = 0; mode < MODES; mode++) {
            try_mode(mode, (capture){ bytes, length }, out, &it);
            try_mode(mode, (capture){ bytes, length / 2 }, out, &it);
        }
        try_handles((capture){ bytes, length });
    }
    free(bytes);
    free(out);
    free(it.bytes);
    return failures != 0;
}
