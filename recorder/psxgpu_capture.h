/* psxgpu_capture.h: records what reaches a PlayStation's GPU, as a capture for psxgpu_tool, and reads captures. One
   header for C99 and C++17, no dependencies, no globals. docs/RECORDING.md says where an emulator calls the first half,
   docs/PLAYER.md what a player does with the second; docs/CAPTURE.md has the format.

   To record:

       static psxgpu_capture cap;                      64 KB, so not on a stack; if it is all 0, nothing is open

       psxgpu_capture_open(&cap, "game.capture");
       psxgpu_capture_gp0(&cap, word);                 a write to 1F801810h, or a word that DMA brings there
       psxgpu_capture_gp1(&cap, word);                 a write to 1F801814h
       psxgpu_capture_read(&cap);                      a read of 1F801810h, or a word that DMA takes there
       psxgpu_capture_skip(&cap, n);                   n such words, which `play` is not to print
       psxgpu_capture_stat(&cap);                      a read of 1F801814h
       psxgpu_capture_frame(&cap);                     a vertical blank
       psxgpu_capture_close(&cap);

   `open` and `close` return 0, or an error number of errno.h. Every other call does nothing if no capture is open. If a
   write fails or memory runs out, the recording is closed, the emulator continues, and `close` returns the error. One
   thread at a time.

   The file always ends after a whole record, and has everything up to the last frame. If the emulator ended before it
   closed the file, four bytes 0 complete it. No file becomes longer than a player accepts: the recording is closed with
   EFBIG before. To record for longer, look at `cap.bytes`, close, open the next file and begin it with
   `psxgpu_capture_state`.

   To record DMA itself, and main memory as it was, call this before the transfer is done, and then neither gp0 nor read
   for its words:

       psxgpu_capture_dma(&cap, channel, madr, bcr, chcr, ram);

   To read a capture:

       psxgpu_reader in;

       psxgpu_reader_load(&in, stdin);                 reads all bytes; 0, or an error number of errno.h
       while (psxgpu_reader_next(&in))                 each record up to End, or up to a fault
           if (in.kind == PSXGPU_GP0)                  its words, from the one after the tag on
               for (k = 0; k < in.count; k++) gp0(psxgpu_reader_word(&in, k));
       status = psxgpu_reader_status(&in, stderr);     0, or 2 after the line with which psxgpu_tool refuses the capture
       psxgpu_reader_free(&in); */
#ifndef PSXGPU_CAPTURE_H
#define PSXGPU_CAPTURE_H
#include <errno.h>
#include <stdint.h>
#include <stdio.h>
#include <stdlib.h>
#include <string.h>

#ifndef PSXGPU_CAPTURE_MOST
#define PSXGPU_CAPTURE_MOST 0x40000000u /* bytes of a file that a player accepts */
#endif

/* Kinds of records, and sizes. */
enum { PSXGPU_RAM = 1, PSXGPU_GP0, PSXGPU_GP1, PSXGPU_READ, PSXGPU_STAT, PSXGPU_DMA, PSXGPU_BEGIN, PSXGPU_TURN,
       PSXGPU_SKIP = 9 };
enum { PSXGPU_ROOM = 65536, PSXGPU_MOST_READS = 262144, PSXGPU_RAM_WORDS = 524288 };

typedef struct psxgpu_capture {
    FILE *file;           /* NULL if nothing is recorded */
    int error;            /* 0, or what ended the recording before `close` */
    uint64_t bytes;       /* in the file, all of whole records */
    uint32_t frames;      /* marked so far */
    uint32_t *known;      /* main memory as a player will have it; NULL before the first start of DMA */
    unsigned char *stale; /* 1 for each word of it that is not known */
    uint32_t kind, count; /* of the last record in room; kind 0 if none may grow */
    size_t tag, used;     /* the offset of that record in room; the bytes buffered in room */
    unsigned char room[PSXGPU_ROOM];
} psxgpu_capture;

static inline void psxgpu_put_(unsigned char *at, uint32_t word) {
    at[0] = (unsigned char)word;
    at[1] = (unsigned char)(word >> 8);
    at[2] = (unsigned char)(word >> 16);
    at[3] = (unsigned char)(word >> 24);
}

static inline uint32_t psxgpu_get_(const unsigned char *at) {
    return (uint32_t)at[0] | (uint32_t)at[1] << 8 | (uint32_t)at[2] << 16 | (uint32_t)at[3] << 24;
}

/* Words of a record, its tag among them. */
static inline size_t psxgpu_length_(uint32_t tag) {
    switch (tag >> 24) {
    case PSXGPU_RAM: return 2 + (tag & 0xFFFFFF);
    case PSXGPU_GP0: return 1 + (tag & 0xFFFFFF);
    case PSXGPU_GP1: return 2;
    case PSXGPU_DMA: case PSXGPU_BEGIN: return 4;
    default: return 1;
    }
}

/* The bytes of whole records among the first `most` of room. */
static inline size_t psxgpu_whole_(const psxgpu_capture *c, size_t most) {
    size_t whole = 0, next = 0;
    while (next <= most && next < c->used) {
        whole = next;
        next += 4 * psxgpu_length_(psxgpu_get_(c->room + next));
    }
    return next <= most ? next : whole;
}

static inline int psxgpu_errno_(void) { return errno ? errno : EIO; }

/* Writes `size` bytes to the file. A write that a signal interrupts continues with the bytes that are left. Returns how
   many are written; after fewer than `size`, errno has the cause, or is 0. */
static inline size_t psxgpu_write_(FILE *file, const void *from, size_t size) {
    const unsigned char *bytes = (const unsigned char *)from;
    size_t written = 0;
    for (;;) {
        errno = 0;
        written += fwrite(bytes + written, 1, size - written, file);
        if (written == size || errno != EINTR) return written;
        clearerr(file);
    }
}

/* Closes the file. `written`: how many bytes of room are in it already. After the last whole record comes End; without
   space for it, nothing or fewer than four bytes 0. */
static inline void psxgpu_end_(psxgpu_capture *c, int error, size_t written) {
    static const unsigned char end[4] = {0, 0, 0, 0};
    size_t whole = psxgpu_whole_(c, written);
    c->bytes += whole;
    errno = 0;
    if (whole == written || !fseek(c->file, (long)c->bytes, SEEK_SET)) {
        if (psxgpu_write_(c->file, end, 4) == 4) c->bytes += 4;
        else if (!error) error = psxgpu_errno_();
    }
    if (fclose(c->file) && !error) error = psxgpu_errno_();
    c->file = NULL;
    c->error = error;
    free(c->known);
    c->known = NULL;
    c->used = c->kind = 0;
}

/* Writes all buffered records to the file. */
static inline void psxgpu_capture_flush(psxgpu_capture *c) {
    size_t most = c->used, written;
    if (c->file) {
        if (c->bytes + c->used + 4 > PSXGPU_CAPTURE_MOST)
            most = psxgpu_whole_(c, (size_t)(PSXGPU_CAPTURE_MOST - 4 - c->bytes));
        written = psxgpu_write_(c->file, c->room, most);
        if (written < most) psxgpu_end_(c, psxgpu_errno_(), written);
        else if (most < c->used) psxgpu_end_(c, EFBIG, written);
        else c->bytes += most;
    }
    c->used = c->kind = 0;
}

static inline int psxgpu_capture_open(psxgpu_capture *c, const char *path) {
    memset(c, 0, sizeof *c);
    errno = 0;
    c->file = fopen(path, "wb");
    if (!c->file) return c->error = psxgpu_errno_();
    setvbuf(c->file, NULL, _IONBF, 0);
    if (psxgpu_write_(c->file, "PSXGPUC2", 8) == 8) {
        c->bytes = 8;
        return 0;
    }
    c->error = psxgpu_errno_();
    fclose(c->file);
    c->file = NULL;
    return c->error;
}

static inline int psxgpu_capture_close(psxgpu_capture *c) {
    psxgpu_capture_flush(c);
    if (c->file) psxgpu_end_(c, 0, 0);
    return c->error;
}

static inline void psxgpu_add_(psxgpu_capture *c, uint32_t word) {
    psxgpu_put_(c->room + c->used, word);
    c->used += 4;
}

/* Starts a record, with space in room for its tag and `words` words after it. */
static inline void psxgpu_record_(psxgpu_capture *c, uint32_t kind, uint32_t count, size_t words) {
    if (c->used + 4 + 4 * words > PSXGPU_ROOM) psxgpu_capture_flush(c);
    c->tag = c->used;
    c->kind = kind;
    c->count = count;
    psxgpu_add_(c, kind << 24 | count);
}

/* Raises the count of the last record, if room has space for `words` words. Returns 0 if a new record is needed. */
static inline int psxgpu_grow_(psxgpu_capture *c, uint32_t kind, size_t words) {
    if (c->kind != kind || c->count == PSXGPU_MOST_READS || c->used + 4 * words > PSXGPU_ROOM) return 0;
    psxgpu_put_(c->room + c->tag, kind << 24 | ++c->count);
    return 1;
}

static inline void psxgpu_capture_gp0(psxgpu_capture *c, uint32_t word) {
    if (!c->file) return;
    if (!psxgpu_grow_(c, PSXGPU_GP0, 1)) psxgpu_record_(c, PSXGPU_GP0, 1, 1);
    psxgpu_add_(c, word);
}

static inline void psxgpu_capture_gp1(psxgpu_capture *c, uint32_t word) {
    if (!c->file) return;
    psxgpu_record_(c, PSXGPU_GP1, 1, 1);
    psxgpu_add_(c, word);
}

static inline void psxgpu_capture_read(psxgpu_capture *c) {
    if (c->file && !psxgpu_grow_(c, PSXGPU_READ, 0)) psxgpu_record_(c, PSXGPU_READ, 1, 0);
}

/* n reads of the data port whose words `play` does not print. */
static inline void psxgpu_capture_skip(psxgpu_capture *c, uint32_t n) {
    for (; c->file && n; n--)
        if (!psxgpu_grow_(c, PSXGPU_SKIP, 0)) psxgpu_record_(c, PSXGPU_SKIP, 1, 0);
}

static inline void psxgpu_capture_stat(psxgpu_capture *c) {
    if (c->file) psxgpu_record_(c, PSXGPU_STAT, 1, 0);
}

/* The mark of a frame: the control word 3Fh, which has no effect, with the number of the frame. */
static inline void psxgpu_capture_frame(psxgpu_capture *c) {
    if (!c->file) return;
    psxgpu_capture_gp1(c, 0x3F000000u | (++c->frames & 0xFFFFFF));
    psxgpu_capture_flush(c);
}

/* Records the state of a running machine, if a recording begins in its midst or a saved state is loaded: 512 rows of
   1024 cells, the values of E1h to E6h, and n words for GP1 (08h, 06h, 07h, 05h, 04h and 03h as they are in force).
   Video memory goes in four loads of 512 by 256, since not every emulator takes one of 1024 by 512. */
static inline void psxgpu_capture_state(psxgpu_capture *c, const uint16_t *cells, const uint32_t settings[6],
                                        const uint32_t *gp1, size_t n) {
    uint32_t part, x, y, k;
    size_t i;
    psxgpu_capture_gp1(c, 0);
    for (part = 0; part < 4; part++) {
        const uint32_t left = part % 2 * 512, top = part / 2 * 256;
        psxgpu_capture_gp0(c, 0xA0000000u);
        psxgpu_capture_gp0(c, top << 16 | left);
        psxgpu_capture_gp0(c, 256u << 16 | 512);
        for (y = top; y < top + 256; y++)
            for (x = 1024 * y + left; x < 1024 * y + left + 512; x += 2)
                psxgpu_capture_gp0(c, (uint32_t)cells[x] | (uint32_t)cells[x + 1] << 16);
    }
    for (k = 0; k < 6; k++) psxgpu_capture_gp0(c, (0xE1u + k) << 24 | (settings[k] & 0xFFFFFF));
    for (i = 0; i < n; i++) psxgpu_capture_gp1(c, gp1[i]);
}

static inline uint32_t psxgpu_ram_(const unsigned char *ram, uint32_t word) {
    return psxgpu_get_(ram + 4 * (size_t)word);
}

/* Records n words of main memory from index `word` on, except those that a player knows. */
static inline void psxgpu_sync_(psxgpu_capture *c, uint32_t word, uint32_t n, const unsigned char *ram) {
    int follows = 0; /* the word before this one is the last in room */
    for (word %= PSXGPU_RAM_WORDS; n && c->file; n--, word = (word + 1) % PSXGPU_RAM_WORDS) {
        const uint32_t value = psxgpu_ram_(ram, word);
        if (!c->stale[word] && c->known[word] == value) {
            follows = 0;
            continue;
        }
        if (!follows || !word || !psxgpu_grow_(c, PSXGPU_RAM, 1)) {
            psxgpu_record_(c, PSXGPU_RAM, 1, 2);
            psxgpu_add_(c, 4 * word);
        }
        psxgpu_add_(c, value);
        c->known[word] = value;
        c->stale[word] = 0;
        follows = 1;
    }
}

/* Allocates main memory as a player has it at first: 0. Returns 0 if memory ran out; the recording is then closed. */
static inline int psxgpu_memory_(psxgpu_capture *c) {
    if (!c->known) {
        c->known = (uint32_t *)calloc(PSXGPU_RAM_WORDS, sizeof *c->known + 1);
        if (c->known) c->stale = (unsigned char *)(c->known + PSXGPU_RAM_WORDS);
        else psxgpu_capture_flush(c);
        if (!c->known && c->file) psxgpu_end_(c, ENOMEM, 0);
    }
    return c->known != NULL;
}

/* Channel 6: n entries from this one down, each the address of the one below it. */
static inline void psxgpu_table_(psxgpu_capture *c, uint32_t word, uint32_t n) {
    for (; n; n--, word--) {
        c->known[word % PSXGPU_RAM_WORDS] = n == 1 ? 0xFFFFFF : 4 * ((word - 1) % PSXGPU_RAM_WORDS);
        c->stale[word % PSXGPU_RAM_WORDS] = 0;
    }
}

/* Records the nodes of a list and the words after each. Returns -1 if the list does not end. */
static inline int psxgpu_list_(psxgpu_capture *c, uint32_t madr, const unsigned char *ram) {
    uint32_t at = madr, nodes = 0, word;
    for (; !(at & 0x800000); at = psxgpu_ram_(ram, at / 4 % PSXGPU_RAM_WORDS))
        if (nodes++ == PSXGPU_RAM_WORDS) return -1;
    for (at = madr; !(at & 0x800000); at = psxgpu_ram_(ram, word)) {
        word = at / 4 % PSXGPU_RAM_WORDS;
        psxgpu_sync_(c, word, 1 + (psxgpu_ram_(ram, word) >> 24), ram);
    }
    return 0;
}

/* Records the words of one block or several. Words that go to main memory are not known from then on. Returns -1 if
   there are more than main memory has. */
static inline int psxgpu_blocks_(psxgpu_capture *c, uint32_t madr, uint32_t bcr, uint32_t chcr,
                                 const unsigned char *ram) {
    const uint32_t size = bcr & 0xFFFF ? bcr & 0xFFFF : 0x10000, blocks = bcr >> 16 ? bcr >> 16 : 0x10000;
    const uint64_t all = chcr >> 9 & 1 ? (uint64_t)size * blocks : size;
    const uint32_t n = (uint32_t)all, backward = chcr >> 1 & 1, word = madr / 4 - (backward ? n - 1 : 0);
    uint32_t i;
    if (all > PSXGPU_RAM_WORDS) return -1;
    if (chcr & 1) psxgpu_sync_(c, word, n, ram);
    else for (i = 0; i < n; i++) c->stale[(word + i) % PSXGPU_RAM_WORDS] = 1;
    return 0;
}

/* Records a start of channel 2 or 6, with the values of its registers. `ram`: main memory, 2 MB as the console has it
   (least significant byte first), before the transfer. First records the words that the transfer reads from there and
   that a player does not know yet. Returns -1 if a player would refuse the start (a list that does not end or goes to
   main memory, mode 3, more words than main memory has): then nothing is written, and the words that your emulator
   nevertheless moves are for gp0 and read. */
static inline int psxgpu_capture_dma(psxgpu_capture *c, uint32_t channel, uint32_t madr, uint32_t bcr, uint32_t chcr,
                                     const void *ram) {
    const unsigned char *bytes = (const unsigned char *)ram;
    const uint32_t mode = chcr >> 9 & 3;
    int refused = 0;
    if (!c->file || !(chcr & 0x01000000) || (channel != 2 && channel != 6) || !psxgpu_memory_(c)) return 0;
    if (channel == 6) psxgpu_table_(c, madr / 4, bcr & 0xFFFF ? bcr & 0xFFFF : 0x10000);
    else if (mode < 2) refused = psxgpu_blocks_(c, madr, bcr, chcr, bytes);
    else refused = mode == 3 || !(chcr & 1) ? -1 : psxgpu_list_(c, madr, bytes);
    if (refused || !c->file) return refused;
    psxgpu_record_(c, PSXGPU_DMA, channel, 3);
    psxgpu_add_(c, madr);
    psxgpu_add_(c, bcr);
    psxgpu_add_(c, chcr);
    return 0;
}

/* The reader's half. */

typedef struct psxgpu_reader {
    const unsigned char *bytes; /* the capture */
    size_t size;                /* in bytes */
    unsigned char *owned;       /* the same bytes after `load`; NULL after `begin` */
    uint32_t version;           /* 1 to 3; 0 before the first record */
    uint64_t events;            /* events of the records before this one */
    uint32_t kind, count;       /* of the record, as its tag has them: count is the channel of DMA and BEGIN */
    size_t words;               /* the offset of the word after the tag */
    size_t at;                  /* the offset of the next tag */
    int ended;                  /* 1 after End or a fault */
    const char *fault;          /* the name of the refusal; NULL if there is none */
    size_t fault_byte;
    uint32_t fault_word;        /* of the refusal bad-record */
} psxgpu_reader;

/* Begins to read `size` bytes that the caller keeps until the end. */
static inline void psxgpu_reader_begin(psxgpu_reader *r, const void *bytes, size_t size) {
    memset(r, 0, sizeof *r);
    r->bytes = (const unsigned char *)bytes;
    r->size = size;
}

/* Reads all bytes of a file, up to the length that a player accepts. Returns 0, or an error number of errno.h. A read
   that a signal interrupts continues. On Windows the file has to be binary. */
static inline int psxgpu_reader_load(psxgpu_reader *r, FILE *file) {
    unsigned char *bytes = NULL, *more;
    size_t size = 0, room = 0;
    int error = 0;
    for (;;) {
        if (size == room) {
            more = (unsigned char *)realloc(bytes, room = room ? 2 * room : (size_t)PSXGPU_ROOM);
            if (!more) error = ENOMEM;
            else bytes = more;
        }
        if (error || size >= PSXGPU_CAPTURE_MOST) break;
        errno = 0;
        size += fread(bytes + size, 1, room - size, file);
        if (size == room) continue;
        if (feof(file)) break;
        if (ferror(file) && errno != EINTR) error = psxgpu_errno_();
        clearerr(file);
    }
    psxgpu_reader_begin(r, bytes, size);
    r->owned = bytes;
    return error;
}

static inline void psxgpu_reader_free(psxgpu_reader *r) {
    free(r->owned);
    psxgpu_reader_begin(r, NULL, 0);
    r->ended = 1;
}

/* Returns word k after the tag of the record. Word 0 of PSXGPU_RAM is the address of its words; the words of PSXGPU_DMA
   and PSXGPU_BEGIN are MADR, BCR and CHCR. */
static inline uint32_t psxgpu_reader_word(const psxgpu_reader *r, size_t k) {
    return psxgpu_get_(r->bytes + r->words + 4 * k);
}

/* Returns the number of events of the record. */
static inline uint32_t psxgpu_reader_events(const psxgpu_reader *r) {
    switch (r->kind) {
    case 0: return 0;
    case PSXGPU_GP1: case PSXGPU_STAT: case PSXGPU_DMA: case PSXGPU_BEGIN: return 1;
    default: return r->count;
    }
}

static inline int psxgpu_fault_(psxgpu_reader *r, const char *fault, size_t byte, uint32_t word) {
    r->ended = 1;
    r->fault = fault;
    r->fault_byte = byte;
    r->fault_word = word;
    return 0;
}

/* Takes `count` words. If the capture is cut before or too long, takes those that are there and returns 0. */
static inline int psxgpu_take_(psxgpu_reader *r, size_t count) {
    const size_t most = r->size < PSXGPU_CAPTURE_MOST ? r->size : PSXGPU_CAPTURE_MOST;
    const size_t there = (most - r->at) / 4;
    r->at += 4 * (there < count ? there : count);
    if (there >= count) return 1;
    if (r->at >= PSXGPU_CAPTURE_MOST) return psxgpu_fault_(r, "too-long", r->at, 0);
    return psxgpu_fault_(r, "truncated", r->size, 0);
}

/* Takes the first eight bytes: the version. */
static inline int psxgpu_head_(psxgpu_reader *r) {
    static const char head[] = "PSXGPUC";
    size_t same = 0;
    if (r->size < 8) return psxgpu_fault_(r, "truncated", r->size, 0);
    while (same < 7 && r->bytes[same] == (unsigned char)head[same]) same++;
    if (same < 7 || r->bytes[7] < '1' || r->bytes[7] > '3') return psxgpu_fault_(r, "not-capture", same, 0);
    r->version = (uint32_t)(r->bytes[7] - '0');
    r->at = 8;
    return 1;
}

/* Returns whether a capture of this version may have a record of this kind and count. */
static inline int psxgpu_allowed_(uint32_t version, uint32_t kind, uint32_t count) {
    if (kind > (version == 1 ? (uint32_t)PSXGPU_DMA : (uint32_t)PSXGPU_SKIP)) return 0;
    switch (kind) {
    case 0: return count == 0;
    case PSXGPU_RAM: return count >= 1 && count <= PSXGPU_RAM_WORDS;
    case PSXGPU_GP0: return count >= 1;
    case PSXGPU_GP1: case PSXGPU_STAT: return count == 1;
    case PSXGPU_DMA: return count == 2 || count == 6;
    case PSXGPU_BEGIN: return count == 2;
    default: return count >= 1 && count <= PSXGPU_MOST_READS;
    }
}

/* Takes the words of a record of main memory or of GP0. If the file ends in them, the record has those that are there;
   the next call finds the fault. */
static inline int psxgpu_some_(psxgpu_reader *r) {
    const size_t first = r->at;
    if (psxgpu_take_(r, r->count)) return 1;
    r->count = (uint32_t)((r->at - first) / 4);
    if (!r->count) return 0;
    r->ended = 0;
    r->fault = NULL;
    return 1;
}

/* Takes the next record. Returns 0 after End, and at the first fault of the file. What comes before the fault is given
   first: `events` is the number of events before it. */
static inline int psxgpu_reader_next(psxgpu_reader *r) {
    uint32_t tag, address;
    size_t start;
    if (r->ended) return 0;
    r->events += psxgpu_reader_events(r);
    r->kind = 0;
    if (!r->version && !psxgpu_head_(r)) return 0;
    start = r->at;
    if (!psxgpu_take_(r, 1)) return 0;
    tag = psxgpu_get_(r->bytes + start);
    if (!psxgpu_allowed_(r->version, tag >> 24, tag & 0xFFFFFF)) return psxgpu_fault_(r, "bad-record", start, tag);
    r->count = tag & 0xFFFFFF;
    r->words = r->at;
    r->ended = !(tag >> 24);
    if (tag >> 24 == PSXGPU_RAM) {
        if (!psxgpu_take_(r, 1)) return 0;
        address = psxgpu_get_(r->bytes + r->words);
        if (address % 4 || address > 0x200000 || address + 4 * r->count > 0x200000)
            return psxgpu_fault_(r, "bad-record", r->words, address);
    }
    if (tag >> 24 == PSXGPU_RAM || tag >> 24 == PSXGPU_GP0) {
        if (!psxgpu_some_(r)) return 0;
    } else if (!psxgpu_take_(r, psxgpu_length_(tag) - 1)) return 0;
    r->kind = tag >> 24;
    return !r->ended;
}

/* Returns the status of a player of the capture: 0, or 2 if it has a fault. Then writes the player's line to `file`. */
static inline int psxgpu_reader_status(const psxgpu_reader *r, FILE *file) {
    if (!r->fault) return 0;
    fprintf(file, "psxgpu: %s at event %llu byte %llu", r->fault, (unsigned long long)(r->events + 1),
            (unsigned long long)r->fault_byte);
    if (!strcmp(r->fault, "bad-record")) fprintf(file, " word %08lx", (unsigned long)r->fault_word);
    fprintf(file, "\n");
    return 2;
}
#endif
