/* The drawing processor of a PlayStation, with main memory and DMA channels 2 and 6, as a proved machine (C99, C++17).
 *
 * Link with libpsxgpu. It calls malloc, realloc, free, memcpy, memmove and memset, and nothing else. It has no global
 * state, starts no thread, reads no file and prints nothing.
 *
 * What each function promises is proved of its code: the clauses of crates/psxgpu_c/src/. Three files are C and
 * trusted: c/heap.c (memory), c/text.c (psxgpu_version, psxgpu_text, psxgpu_line) and c/play_to.c (psxgpu_play_to).
 *
 * Each function that returns a uint32_t returns 0 on success, else a code for the cause. On failure it changes neither
 * the machine nor the caller's buffers, except for output that its comment names. So after NO_ROOM or NO_MEMORY the
 * same call may be made again, with a larger buffer or more memory. Every function that takes a psxgpu also fails with
 * CLOSED if the handle has no machine.
 *
 * What a caller owes, which nothing checks:
 *   - A psxgpu is PSXGPU_NONE before its first call. Only this library changes it. It may be moved: copy its bytes to
 *     another place and use the copy alone from then on. psxgpu_free must be called before it is dropped, as nothing
 *     else frees its memory.
 *   - A pointer is not null, unless it comes with a count of 0: then it may be null. A pointer with a count points to
 *     that number of values. They are readable, and also writable unless they are const. Output may be uninitialized:
 *     the library writes it and never reads it.
 *   - The arguments of one call do not overlap.
 *   - One call at a time works on a psxgpu, and none is made from a signal handler. This holds for calls that take a
 *     const psxgpu too: they leave the machine and the handle as they are, but write the handle while they run. Two
 *     machines share nothing, so each thread may have its own.
 *
 * Words are 32 bits. Bytes of files are those of docs/CAPTURE.md, with the low byte of each word first.
 */
#ifndef PSXGPU_H
#define PSXGPU_H

#include <stddef.h>
#include <stdint.h>

#ifdef __cplusplus
extern "C" {
#endif

/* The version of this header. */
#define PSXGPU_VERSION "1.0.0"
#define PSXGPU_VERSION_MAJOR 1
#define PSXGPU_VERSION_MINOR 0
#define PSXGPU_VERSION_PATCH 0

/* A machine, or none. The fields are for the library alone. */
typedef struct psxgpu {
    void *at;
    uint32_t open;
} psxgpu;

#ifdef __cplusplus
#define PSXGPU_NONE { nullptr, 0 }
#else
#define PSXGPU_NONE { 0, 0 }
#endif

/* The codes. */
enum {
    PSXGPU_DONE = 0,
    PSXGPU_NOT_CAPTURE = 2,   /* the bytes start neither a capture nor a snapshot; place: the first byte that differs */
    PSXGPU_TRUNCATED = 3,     /* the bytes end too early; place: their number */
    PSXGPU_BAD_RECORD = 4,    /* word, at byte place, starts no record that is allowed there */
    PSXGPU_TOO_LONG = 5,      /* a word would start at byte place, 2^30 */
    PSXGPU_BAD_DMA = 7,       /* a start of channel 2 in mode 3, or of a list to main memory */
    PSXGPU_DMA_TOO_LONG = 8,  /* a start of channel 2 with more words than main memory has; place: how many */
    PSXGPU_LIST_LOOP = 9,     /* a list visits an address twice; word: the first such address */
    PSXGPU_NO_PICTURE = 10,   /* the shown picture has no pixel */
    PSXGPU_NO_ROOM = 11,      /* the buffer is too small for the output */
    PSXGPU_BAD_SNAPSHOT = 12, /* word, at byte place, is not allowed there in a state */
    PSXGPU_NO_MEMORY = 13,    /* malloc failed */
    PSXGPU_CLOSED = 14,       /* the handle has no machine */
    PSXGPU_OPEN = 15,         /* the handle has a machine, or an output, already */
    PSXGPU_BAD_MODE = 16,     /* no mode has this number */
    PSXGPU_NO_CELL = 17,      /* video memory has no such cell */
    PSXGPU_BAD_ADDRESS = 18,  /* main memory has no words there */
    PSXGPU_BAD_CHANNEL = 19,  /* a channel other than 2 and 6 */
    PSXGPU_TOO_MANY_EVENTS = 20, /* 2^63 events or more were played: a snapshot counts at most 2^63 - 1 */
    PSXGPU_SINK_REFUSED = 21  /* the caller's sink refused bytes */
};

/* The details of how a call ended. A field that the code does not name is 0. */
typedef struct psxgpu_ended {
    size_t written; /* bytes of output in the buffer */
    uint64_t event; /* the number of the event at which it ended; 0 if none */
    uint64_t place; /* a byte offset, or a count of words */
    uint32_t word;  /* a word, or an address */
    uint32_t code;  /* the returned code */
} psxgpu_ended;

/* ---- version and texts: static strings, never null */

/* Returns PSXGPU_VERSION of the library that the program runs with. */
const char *psxgpu_version(void);

/* Returns the text of a code: psxgpu_tool's word for what the program refuses too ("list-loop"), else a short phrase
 * ("no such cell"). "unknown code" for a number that is no code. */
const char *psxgpu_text(uint32_t code);

/* Writes the line of psxgpu_tool for an ending, without "psxgpu: " and newline: "list-loop at event 5 node 001000". It
 * ends with a 0, and is cut off if `room` bytes are too few. Returns its whole length without the 0. */
size_t psxgpu_line(const psxgpu_ended *ended, char *out, size_t room);

#define PSXGPU_LINE_ROOM 96 /* bytes that always suffice */

/* ---- a machine
 *
 * Each call that changes the machine is an event, or several, unless its comment says "no event". Events are numbered
 * from 1 in refusals and snapshots, as those of a capture are. */

/* Makes a machine in its first state: memories of zeros, the registers after a reset, no event played.
 * Fails with OPEN, NO_MEMORY. */
uint32_t psxgpu_new(psxgpu *gpu);

/* Frees the machine, if there is one. The handle is PSXGPU_NONE then. */
void psxgpu_free(psxgpu *gpu);

/* Puts the machine back into its first state. No event. Fails with NO_MEMORY. */
uint32_t psxgpu_clear(psxgpu *gpu);

/* Extends video memory from 512 to 1024 rows, as for captures of version 3. The new rows are zeros; all else stays.
 * No event. */
uint32_t psxgpu_set_tall(psxgpu *gpu);

/* ---- the ports */

/* Writes a word to GP0 (1F801810h): an event. */
uint32_t psxgpu_gp0(psxgpu *gpu, uint32_t word);

/* Writes `count` words to GP0, one event per word. Much faster than one call per word. */
uint32_t psxgpu_gp0_words(psxgpu *gpu, const uint32_t *words, size_t count);

/* What one item of GP0 words did: a packet, a vertex of a polyline after its second, or the end of a polyline. 40
 * bytes, without padding on 64-bit systems. */
typedef struct psxgpu_note {
    uint64_t event;        /* the number of the event that completed it */
    size_t word;           /* the index of its last word in the call, from 0 */
    uint32_t head;         /* its command, or the end word of a polyline */
    uint16_t class_number; /* 0 to 7: the top three bits of the command; 8: the end of a polyline */
    uint16_t has_area;     /* 1 if it has an area, else 0 */
    int32_t x1, y1;        /* the first column and row of the cells that it may change; 0 without an area */
    int32_t x2, y2;        /* the last column and row; less than the first if there is no such cell */
} psxgpu_note;

/* Does what psxgpu_gp0_words does, and writes one note per completed item, in order, to the start of `notes`. Data
 * words of a load have no note. `room` counts notes and must be at least `count`; other notes stay. `written`: the
 * number of notes, 0 on failure. Fails with NO_ROOM. */
uint32_t psxgpu_gp0_notes(psxgpu *gpu, const uint32_t *words, size_t count, psxgpu_note *notes, size_t room,
                          size_t *written);

/* Writes a word to GP1 (1F801814h): an event. */
uint32_t psxgpu_gp1(psxgpu *gpu, uint32_t word);

/* Reads the data port (1F801810h): an event. */
uint32_t psxgpu_read(psxgpu *gpu, uint32_t *word);

/* Reads the status word (1F801814h): an event. */
uint32_t psxgpu_status(psxgpu *gpu, uint32_t *word);

/* Reads the data port and drops the word: an event. */
uint32_t psxgpu_skip(psxgpu *gpu);

/* ---- main memory and DMA */

/* Writes `count` words to main memory from byte address `address` on, one event per word. Fails with BAD_ADDRESS if
 * `address` is not a multiple of 4, or a word would be at 200000h or above. */
uint32_t psxgpu_ram(psxgpu *gpu, uint32_t address, const uint32_t *words, size_t count);

/* Starts DMA channel 2 or 6 with its three registers and moves all words: an event. On failure ended->event is the
 * number that the event would have had. Always writes `ended`. Fails with BAD_CHANNEL, BAD_DMA, DMA_TOO_LONG,
 * LIST_LOOP. */
uint32_t psxgpu_dma(psxgpu *gpu, uint32_t channel, uint32_t madr, uint32_t bcr, uint32_t chcr, psxgpu_ended *ended);

/* Starts DMA channel 2 and moves nothing before the first psxgpu_turn: an event. Always writes `ended`. Fails with
 * BAD_DMA, DMA_TOO_LONG. */
uint32_t psxgpu_begin(psxgpu *gpu, uint32_t madr, uint32_t bcr, uint32_t chcr, psxgpu_ended *ended);

/* Moves the next block of the running transfer, or the words of its next node; nothing if none runs: an event. */
uint32_t psxgpu_turn(psxgpu *gpu);

/* ---- looking at the machine: no event, and the machine stays as it is */

/* Writes all cells (16-bit halfwords) of video memory row by row, the low byte of each first: 1,048,576 bytes, or
 * 2,097,152 for 1024 rows. `written`: the number of bytes, 0 on failure. Fails with NO_ROOM, NO_MEMORY. */
uint32_t psxgpu_vram(const psxgpu *gpu, uint8_t *out, size_t room, size_t *written);

#define PSXGPU_VRAM_ROOM 2097152 /* bytes that always suffice */

/* Reads the cell in column x, 0 to 1023, and row y, 0 to 511 or 1023. `cell` stays on failure. Fails with NO_CELL. */
uint32_t psxgpu_cell(const psxgpu *gpu, uint32_t x, uint32_t y, uint16_t *cell);

/* Sets `width` and `height` to those of the shown picture in pixels. Both stay on failure. Fails with NO_PICTURE. */
uint32_t psxgpu_shape(const psxgpu *gpu, uint16_t *width, uint16_t *height);

/* Writes the shown picture as PPM (P6). 3 * width * height + 32 bytes always suffice. `written`: the number of bytes, 0
 * on failure. Fails with NO_PICTURE, NO_ROOM, NO_MEMORY. */
uint32_t psxgpu_picture(const psxgpu *gpu, uint8_t *out, size_t room, size_t *written);

/* Writes the shown picture as RGBA: row by row from the top, per pixel red, green, blue as in the PPM, and 255:
 * 4 * width * height bytes. `written`: the number of bytes, 0 on failure. Fails with NO_PICTURE, NO_ROOM, NO_MEMORY. */
uint32_t psxgpu_picture_rgba(const psxgpu *gpu, uint8_t *out, size_t room, size_t *written);

/* Writes the registers as thirteen words: the values of E1h to E6h, the flags (bit 0: interrupt, bit 1: display off),
 * the DMA direction, the start of the display area, its two ranges, its mode, and the latch of the data port. `room`
 * counts words. Fails with NO_ROOM. */
uint32_t psxgpu_registers(const psxgpu *gpu, uint32_t *words, size_t room);

#define PSXGPU_REGISTER_WORDS 13

/* ---- snapshots: no event */

/* Writes the machine as a snapshot with no record after its state: the file that `psxgpu_tool cut` writes after the
 * same events. Every command that plays reads it, and psxgpu_load makes this machine from it. `written`: the number of
 * bytes, 0 on failure. Fails with TOO_MANY_EVENTS, NO_ROOM, NO_MEMORY. */
uint32_t psxgpu_save(const psxgpu *gpu, uint8_t *out, size_t room, size_t *written);

#define PSXGPU_SAVE_ROOM 4194564 /* bytes that always suffice */

/* Makes the machine the state of the snapshot in `bytes`, with its number of events. Of a capture: the first state,
 * with 1024 rows for version 3. Records are not read. Always writes `ended`. Fails with NO_MEMORY, NOT_CAPTURE,
 * TRUNCATED, BAD_SNAPSHOT. */
uint32_t psxgpu_load(psxgpu *gpu, const uint8_t *bytes, size_t length, psxgpu_ended *ended);

/* ---- a whole capture or snapshot, played by a machine of its own */

/* The modes: each is a command of psxgpu_tool. */
enum {
    PSXGPU_MODE_PLAY = 0,         /* play: the words read, and the status word */
    PSXGPU_MODE_VRAM = 1,         /* vram: video memory */
    PSXGPU_MODE_SHOT = 2,         /* shot: the shown picture as PPM */
    PSXGPU_MODE_LIST = 3,         /* list: a line for each packet */
    PSXGPU_MODE_REPORT = 4,       /* report: counts, the last packets, areas */
    PSXGPU_MODE_FRAMES = 5,       /* frames: a picture after each flip */
    PSXGPU_MODE_FRAMES_MARKS = 6, /* frames marks: a picture after each mark */
    PSXGPU_MODE_SUMS = 7,         /* sums: a line for each flip */
    PSXGPU_MODE_SUMS_MARKS = 8,   /* sums marks: a line for each mark */
    PSXGPU_MODE_PIXEL = 9         /* pixel: the packets that changed a cell */
};

/* Plays the capture or snapshot in the `length` bytes at `capture`, and writes the mode's output to `out`. `cell` is
 * x | y << 16, for PIXEL alone. On failure `out` has the first ended->written bytes of the output, as the command
 * writes them, and ended->event is the number of the event that failed. NO_ROOM means that `out` is full and the output
 * is longer. Later bytes of `out` stay. Always writes `ended`. Fails with BAD_MODE, NO_MEMORY, NOT_CAPTURE, TRUNCATED,
 * BAD_RECORD, TOO_LONG, BAD_SNAPSHOT, BAD_DMA, DMA_TOO_LONG, LIST_LOOP, NO_PICTURE, NO_ROOM. */
uint32_t psxgpu_play(uint32_t mode, uint32_t cell, const uint8_t *capture, size_t length, uint8_t *out, size_t room,
                     psxgpu_ended *ended);

/* Plays as psxgpu_play does and keeps no output: ended->written is the number of its bytes, on failure too. Always
 * writes `ended`. Fails as psxgpu_play does, but with NO_ROOM only after 2^64 - 1 bytes. */
uint32_t psxgpu_play_size(uint32_t mode, uint32_t cell, const uint8_t *capture, size_t length, psxgpu_ended *ended);

/* The output of a capture that was played, or none. The fields are for the library alone. What a caller owes for a
 * psxgpu, it owes for a psxgpu_output: it is PSXGPU_OUTPUT_NONE before its first call, and psxgpu_output_free frees
 * it. */
typedef struct psxgpu_output {
    void *at;
    uint32_t open;
} psxgpu_output;

#define PSXGPU_OUTPUT_NONE PSXGPU_NONE

/* Plays as psxgpu_play does, once, and keeps the output in `output`, in memory of the library. On failure it has the
 * first ended->written bytes of the output. After OPEN, BAD_MODE and NO_MEMORY it is as before, and ended->written
 * is 0. Always writes `ended`. Fails with OPEN if `output` has an output already, else as psxgpu_play does, but never
 * with NO_ROOM. */
uint32_t psxgpu_play_output(uint32_t mode, uint32_t cell, const uint8_t *capture, size_t length, psxgpu_output *output,
                            psxgpu_ended *ended);

/* Writes the bytes of the output from `offset` on to `out`, at most `room` of them, and returns their number. It is 0
 * after the last byte, and without an output. Later bytes of `out` stay. */
size_t psxgpu_output_copy(const psxgpu_output *output, size_t offset, uint8_t *out, size_t room);

/* Frees the output, if there is one. The handle is PSXGPU_OUTPUT_NONE then. */
void psxgpu_output_free(psxgpu_output *output);

/* Takes the next `count` bytes of an output, at least one. They are readable until it returns. Returns 0 to go on. */
typedef int psxgpu_sink(void *user, const uint8_t *bytes, size_t count);

/* Plays as psxgpu_play_output does, and then passes the output to `sink` in order, on failure too. `user` is passed
 * on. ended->written: the number of bytes that the sink took. If the sink returns another number than 0, it is not
 * called again, and the call fails with SINK_REFUSED. Always writes `ended`. */
uint32_t psxgpu_play_to(uint32_t mode, uint32_t cell, const uint8_t *capture, size_t length, psxgpu_sink *sink,
                        void *user, psxgpu_ended *ended);

#ifdef __cplusplus
}
#endif
#endif
