/* Calls at the edge of what the header allows: counts of 0 with null pointers, a handle that was moved, looks at a
 * constant machine, and the texts of all codes. Prints one line for each failure. */
#include <stdio.h>
#include <stdlib.h>
#include <string.h>

#include "psxgpu.h"

static int failures;

static void expect(int holds, const char *what) {
    if (holds) return;
    failures++;
    printf("%s\n", what);
}

static void expect_text(const char *found, const char *wanted) {
    if (strcmp(found, wanted) == 0) return;
    failures++;
    printf("%s, not %s\n", found, wanted);
}

/* ---- counts of 0 */

static void try_none(psxgpu *gpu) {
    psxgpu_ended ended;
    size_t written = 9;
    expect(psxgpu_gp0_words(gpu, NULL, 0) == 0, "no word is refused");
    expect(psxgpu_ram(gpu, 0x1ffffc, NULL, 0) == 0, "no word for main memory is refused");
    expect(psxgpu_gp0_notes(gpu, NULL, 0, NULL, 0, &written) == 0 && written == 0, "no note is refused");
    expect(psxgpu_vram(gpu, NULL, 0, &written) == PSXGPU_NO_ROOM && written == 0, "video memory fits into no byte");
    expect(psxgpu_picture(gpu, NULL, 0, &written) == PSXGPU_NO_ROOM && written == 0, "a picture fits into no byte");
    expect(psxgpu_picture_rgba(gpu, NULL, 0, &written) == PSXGPU_NO_ROOM, "pixels fit into no byte");
    expect(psxgpu_registers(gpu, NULL, 0) == PSXGPU_NO_ROOM, "registers fit into no word");
    expect(psxgpu_save(gpu, NULL, 0, &written) == PSXGPU_NO_ROOM && written == 0, "a snapshot fits into no byte");
    expect(psxgpu_load(gpu, NULL, 0, &ended) == PSXGPU_TRUNCATED && ended.place == 0, "no byte is loaded");
    expect(psxgpu_play(PSXGPU_MODE_VRAM, 0, NULL, 0, NULL, 0, &ended) == PSXGPU_TRUNCATED, "no byte is played");
    expect(ended.event == 1 && ended.place == 0 && ended.written == 0, "playing no byte ends elsewhere");
}

/* ---- a handle that was moved, and looks */

static uint16_t cell_of(const psxgpu *gpu, uint32_t x, uint32_t y) {
    uint16_t cell = 0;
    expect(psxgpu_cell(gpu, x, y, &cell) == 0, "a cell is refused");
    return cell;
}

static void try_moved(void) {
    static const uint32_t fill[] = { 0x020000ff, 0, 16u << 16 | 16 };
    psxgpu first = PSXGPU_NONE, *moved = (psxgpu *)malloc(sizeof *moved);
    if (moved == NULL || psxgpu_new(&first) != 0) exit(5);
    psxgpu_gp0_words(&first, fill, 3);
    memcpy(moved, &first, sizeof first);
    memset(&first, 0x5a, sizeof first);
    expect(cell_of(moved, 15, 15) == 31, "a moved machine has other cells");
    psxgpu before = *moved;
    expect(cell_of(moved, 16, 15) == 0 && memcmp(moved, &before, sizeof before) == 0, "a look changes the handle");
    psxgpu_free(moved);
    expect(moved->at == NULL && moved->open == 0, "a freed handle is not PSXGPU_NONE");
    free(moved);
}

/* ---- texts */

static void expect_line(psxgpu_ended ended, const char *wanted) {
    char line[PSXGPU_LINE_ROOM];
    expect(psxgpu_line(&ended, line, sizeof line) == strlen(wanted), "a line has another length");
    expect_text(line, wanted);
}

static void try_texts(void) {
    static const struct { psxgpu_ended ended; const char *line; } rows[] = {
        { { 0, 0, 0, 0, PSXGPU_DONE }, "done" },
        { { 0, 1, 7, 0, PSXGPU_NOT_CAPTURE }, "not-capture at event 1 byte 7" },
        { { 0, 3, 0, 0, PSXGPU_TRUNCATED }, "truncated at event 3 byte 0" },
        { { 0, 1, 8, 0xab, PSXGPU_BAD_RECORD }, "bad-record at event 1 byte 8 word 000000ab" },
        { { 0, 2, 1073741824, 0, PSXGPU_TOO_LONG }, "too-long at event 2 byte 1073741824" },
        { { 9, 4, 0, 0, PSXGPU_BAD_DMA }, "bad-dma at event 4" },
        { { 0, 4, 524289, 0, PSXGPU_DMA_TOO_LONG }, "dma-too-long at event 4 words 524289" },
        { { 0, 5, 0, 0x1000, PSXGPU_LIST_LOOP }, "list-loop at event 5 node 001000" },
        { { 0, 0, 0, 0, PSXGPU_NO_PICTURE }, "no-picture" },
        { { 0, UINT64_MAX, 0, 0, PSXGPU_NO_PICTURE }, "no-picture at event 18446744073709551615" },
        { { 0, 8, 0, 0, PSXGPU_NO_ROOM }, "no-room" },
        { { 0, 1, 12, 0xffffffff, PSXGPU_BAD_SNAPSHOT }, "bad-snapshot at event 1 byte 12 word ffffffff" },
        { { 0, 0, 0, 0, PSXGPU_NO_MEMORY }, "memory" },
        { { 0, 0, 0, 0, PSXGPU_NO_CELL }, "no such cell" },
        { { 9, 0, 0, 0, PSXGPU_SINK_REFUSED }, "the sink refused bytes" },
        { { 0, 0, 0, 0, 22 }, "unknown code" },
    };
    for (size_t k = 0; k < sizeof rows / sizeof *rows; k++) expect_line(rows[k].ended, rows[k].line);
    for (uint32_t code = 0; code <= PSXGPU_SINK_REFUSED; code++)
        expect((strcmp(psxgpu_text(code), "unknown code") == 0) == (code == 1 || code == 6), "a code has no text");
    expect_text(psxgpu_text(UINT32_MAX), "unknown code");
    expect_text(psxgpu_version(), PSXGPU_VERSION);
}

/* A line that is cut off ends with a 0 all the same, and nothing after it is written. */
static void try_short_lines(void) {
    psxgpu_ended ended = { 0, 1, 12, 0xffffffff, PSXGPU_BAD_SNAPSHOT };
    char line[] = "zzzzzzzz";
    expect(psxgpu_line(&ended, NULL, 0) == 45, "no room counts other bytes");
    expect(psxgpu_line(&ended, line, 4) == 45, "little room counts other bytes");
    expect(memcmp(line, "bad\0zzzz", 9) == 0, "a line is not cut off");
}

int main(void) {
    psxgpu gpu = PSXGPU_NONE;
    if (psxgpu_new(&gpu) != PSXGPU_DONE) return 5;
    try_none(&gpu);
    psxgpu_free(&gpu);
    try_moved();
    try_texts();
    try_short_lines();
    return failures != 0;
}
