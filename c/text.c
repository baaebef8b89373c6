/* The library's version, and its codes in the words of psxgpu_tool. Constant data alone: no state, no call. */
#include "psxgpu.h"

/* What a line has after the text of its code. */
enum { EVENT = 1, BYTE = 2, WORD = 4, WORDS = 8, NODE = 16 };

static const struct { char text[50]; uint16_t parts; } causes[] = {
    [PSXGPU_DONE] = { "done", 0 },
    [PSXGPU_NOT_CAPTURE] = { "not-capture", EVENT | BYTE },
    [PSXGPU_TRUNCATED] = { "truncated", EVENT | BYTE },
    [PSXGPU_BAD_RECORD] = { "bad-record", EVENT | BYTE | WORD },
    [PSXGPU_TOO_LONG] = { "too-long", EVENT | BYTE },
    [PSXGPU_BAD_DMA] = { "bad-dma", EVENT },
    [PSXGPU_DMA_TOO_LONG] = { "dma-too-long", EVENT | WORDS },
    [PSXGPU_LIST_LOOP] = { "list-loop", EVENT | NODE },
    [PSXGPU_NO_PICTURE] = { "no-picture", EVENT },
    [PSXGPU_NO_ROOM] = { "no-room", 0 },
    [PSXGPU_BAD_SNAPSHOT] = { "bad-snapshot", EVENT | BYTE | WORD },
    [PSXGPU_NO_MEMORY] = { "memory", 0 },
    [PSXGPU_CLOSED] = { "the machine is closed", 0 },
    [PSXGPU_OPEN] = { "it is open already", 0 },
    [PSXGPU_BAD_MODE] = { "the library has no such mode", 0 },
    [PSXGPU_NO_CELL] = { "no such cell", 0 },
    [PSXGPU_BAD_ADDRESS] = { "main memory has no words there", 0 },
    [PSXGPU_BAD_CHANNEL] = { "no such channel", 0 },
    [PSXGPU_TOO_MANY_EVENTS] = { "more events were played than a snapshot can count", 0 },
    [PSXGPU_SINK_REFUSED] = { "the sink refused bytes", 0 },
};

enum { CAUSES = sizeof causes / sizeof *causes };

/* A line that is being written: what does not fit is counted, and not written. */
struct line {
    char *out;
    size_t room, length;
};

static void put(struct line *line, const char *text) {
    for (; *text != '\0'; text++, line->length++)
        if (line->length + 1 < line->room) line->out[line->length] = *text;
}

/* Puts a name and a number with at least `digits` digits, in base 10 or 16. */
static void put_number(struct line *line, const char *name, uint64_t number, unsigned base, int digits) {
    char text[21];
    char *at = text + sizeof text - 1;
    *at = '\0';
    for (; number != 0 || digits > 0; number /= base, digits--) *--at = "0123456789abcdef"[number % base];
    put(line, name);
    put(line, at);
}

const char *psxgpu_version(void) { return PSXGPU_VERSION; }

const char *psxgpu_text(uint32_t code) {
    return code < CAUSES && causes[code].text[0] != '\0' ? causes[code].text : "unknown code";
}

size_t psxgpu_line(const psxgpu_ended *ended, char *out, size_t room) {
    struct line line = { out, room, 0 };
    unsigned parts = ended->code < CAUSES ? causes[ended->code].parts : 0;
    put(&line, psxgpu_text(ended->code));
    if ((parts & EVENT) != 0 && ended->event != 0) put_number(&line, " at event ", ended->event, 10, 1);
    if ((parts & BYTE) != 0) put_number(&line, " byte ", ended->place, 10, 1);
    if ((parts & WORD) != 0) put_number(&line, " word ", ended->word, 16, 8);
    if ((parts & WORDS) != 0) put_number(&line, " words ", ended->place, 10, 1);
    if ((parts & NODE) != 0) put_number(&line, " node ", ended->word, 16, 6);
    if (room > 0) out[line.length < room ? line.length : room - 1] = '\0';
    return line.length;
}
