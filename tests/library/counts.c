/* Saves machines near the most events that a snapshot counts, 2^63 - 1: what is saved loads again, and a machine with
 * more is not saved. Writes nothing if all is as the header says. */
#include <inttypes.h>
#include <stdio.h>
#include <string.h>

#include "psxgpu.h"

enum { ROOM = PSXGPU_SAVE_ROOM, COUNT = 12, FILL = 0x5a }; /* the count of events is in bytes 12 to 19 */

static uint8_t first[ROOM], second[ROOM];
static int failures;

static void expect(int holds, const char *what) {
    if (holds) return;
    failures++;
    printf("%s\n", what);
}

/* Writes a count of events to a snapshot. */
static void set_count(uint8_t *snapshot, uint64_t count) {
    for (int k = 0; k < 8; k++) snapshot[COUNT + k] = (uint8_t)(count >> 8 * k);
}

static void try_counts(psxgpu *gpu) {
    psxgpu_ended ended;
    size_t length = 0, again = 0, none = 1;
    expect(psxgpu_save(gpu, first, ROOM, &length) == 0, "a new machine is not saved");
    set_count(first, INT64_MAX);
    expect(psxgpu_load(gpu, first, length, &ended) == 0, "the most events are not loaded");
    expect(psxgpu_save(gpu, second, ROOM, &again) == 0, "the most events are not saved");
    expect(again == length && memcmp(first, second, length) == 0, "other bytes are saved than were loaded");

    expect(psxgpu_gp0(gpu, 0) == 0, "a word is refused after the most events");
    memset(second, FILL, ROOM);
    expect(psxgpu_save(gpu, second, ROOM, &none) == PSXGPU_TOO_MANY_EVENTS, "an event too many is saved");
    expect(none == 0 && second[0] == FILL && memcmp(second, second + 1, ROOM - 1) == 0, "the room is written");

    set_count(first, (uint64_t)INT64_MAX + 1);
    expect(psxgpu_load(gpu, first, length, &ended) == PSXGPU_BAD_SNAPSHOT, "an event too many is loaded");
    expect(ended.place == COUNT + 4 && ended.word == 0x80000000, "another word is bad than the high one of the count");

    expect(psxgpu_clear(gpu) == 0 && psxgpu_save(gpu, second, ROOM, &again) == 0, "no machine is saved any more");
}

int main(void) {
    psxgpu gpu = PSXGPU_NONE;
    if (psxgpu_new(&gpu) != PSXGPU_DONE) return 5;
    try_counts(&gpu);
    psxgpu_free(&gpu);
    return failures != 0;
}
