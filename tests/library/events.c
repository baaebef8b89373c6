/* Plays a capture through the calls of the library, one for each event, and writes what psxgpu_tool writes.
 *
 *     events [blocks] play|vram|shot|COUNT < capture > output
 *
 * COUNT is for psxgpu_tool's `cut COUNT` of a capture that ends there: the machine after the first COUNT events. With
 * `blocks` the words of a Gp0 record go to the machine in one call. The capture has to be whole. */
#include <errno.h>
#include <inttypes.h>
#include <stdio.h>
#include <stdlib.h>
#include <string.h>

#include "psxgpu.h"

enum kind { END, RAM, GP0, GP1, READ, STAT, DMA, BEGIN, TURN, SKIP };

/* A capture in memory, and the state of its replay. */
struct player {
    psxgpu gpu;
    const uint32_t *words; /* the next words of the capture */
    uint64_t left;         /* the number of events not yet played */
    int in_blocks, shows_reads;
    psxgpu_ended ended;
};

static void fail(const char *text) {
    fprintf(stderr, "events: %s\n", text);
    exit(5);
}

static void *room_for(size_t size) {
    void *room = malloc(size);
    if (room == NULL) fail("no memory");
    return room;
}

/* Reads standard input to its end. A read that a signal interrupts is repeated. */
static uint8_t *read_all(size_t *length) {
    size_t room = 1 << 16;
    uint8_t *bytes = room_for(room);
    *length = 0;
    for (;;) {
        errno = 0;
        *length += fread(bytes + *length, 1, room - *length, stdin);
        if (*length == room) {
            room *= 2;
            bytes = realloc(bytes, room);
            if (bytes == NULL) fail("no memory");
        } else if (!ferror(stdin)) {
            return bytes;
        } else if (errno == EINTR) {
            clearerr(stdin);
        } else {
            fail("standard input cannot be read");
        }
    }
}

static void play_gp0(struct player *player, size_t count) {
    if (player->in_blocks) {
        psxgpu_gp0_words(&player->gpu, player->words, count);
    } else {
        for (size_t k = 0; k < count; k++) psxgpu_gp0(&player->gpu, player->words[k]);
    }
}

/* A read or a status read, whose word `play` shows. */
static void play_read(struct player *player, uint32_t (*read)(psxgpu *, uint32_t *)) {
    uint32_t word = 0;
    read(&player->gpu, &word);
    if (player->shows_reads) printf("%08" PRIx32 "\n", word);
}

/* Plays one event that is not a word for GP0 or main memory. */
static uint32_t play_event(struct player *player, enum kind kind, uint32_t channel) {
    psxgpu *gpu = &player->gpu;
    const uint32_t *words = player->words;
    switch (kind) {
    case GP1: return psxgpu_gp1(gpu, words[0]);
    case READ: play_read(player, psxgpu_read); return 0;
    case STAT: play_read(player, psxgpu_status); return 0;
    case DMA: return psxgpu_dma(gpu, channel, words[0], words[1], words[2], &player->ended);
    case BEGIN: return psxgpu_begin(gpu, words[0], words[1], words[2], &player->ended);
    case TURN: return psxgpu_turn(gpu);
    case SKIP: return psxgpu_skip(gpu);
    default: fail("unknown record");
    }
    return 0;
}

/* Returns the number of words after the tag and, in a Ram record, the address. */
static size_t words_after(enum kind kind, size_t count) {
    if (kind == RAM || kind == GP0) return count;
    if (kind == DMA || kind == BEGIN) return 3;
    return kind == GP1;
}

/* Plays the next record, or as many of its events as are left. */
static uint32_t play_record(struct player *player) {
    uint32_t tag = *player->words++, channel = tag & 0xffffff, code = 0;
    enum kind kind = (enum kind)(tag >> 24);
    size_t count = kind == DMA || kind == BEGIN ? 1 : channel;
    size_t played = count < player->left ? count : (size_t)player->left;
    if (kind == RAM) {
        uint32_t address = *player->words++;
        code = psxgpu_ram(&player->gpu, address, player->words, played);
    } else if (kind == GP0) {
        play_gp0(player, played);
    } else {
        for (size_t k = 0; k < played && code == 0; k++) code = play_event(player, kind, channel);
    }
    player->left -= played;
    player->words += words_after(kind, count);
    return code;
}

static int tell(const psxgpu_ended *ended) {
    char line[PSXGPU_LINE_ROOM];
    psxgpu_line(ended, line, sizeof line);
    fprintf(stderr, "psxgpu: %s\n", line);
    return 2;
}

/* What the command writes after the last event. */
static int show(struct player *player, const char *command) {
    uint8_t *out = room_for(PSXGPU_SAVE_ROOM);
    size_t written = 0;
    uint32_t word = 0, code = 0;
    if (strcmp(command, "play") == 0) {
        psxgpu_status(&player->gpu, &word);
        printf("status %08" PRIx32 "\n", word);
    } else if (strcmp(command, "vram") == 0) {
        code = psxgpu_vram(&player->gpu, out, PSXGPU_VRAM_ROOM, &written);
    } else if (strcmp(command, "shot") == 0) {
        code = psxgpu_picture(&player->gpu, out, PSXGPU_SAVE_ROOM, &written);
    } else {
        code = psxgpu_save(&player->gpu, out, PSXGPU_SAVE_ROOM, &written);
    }
    fwrite(out, 1, written, stdout);
    free(out);
    return code == 0 ? 0 : 2;
}

int main(int argc, char **argv) {
    struct player player = { PSXGPU_NONE, NULL, UINT64_MAX, 0, 0, { 0, 0, 0, 0, 0 } };
    player.in_blocks = argc > 2 && strcmp(argv[1], "blocks") == 0;
    const char *command = argc > 1 ? argv[argc - 1] : "vram";
    player.shows_reads = strcmp(command, "play") == 0;
    if (command[0] >= '1' && command[0] <= '9') player.left = strtoull(command, NULL, 10);
    size_t length;
    uint8_t *capture = read_all(&length);
    player.words = (const uint32_t *)(void *)(capture + 8);
    if (psxgpu_new(&player.gpu) != 0) fail("no memory");
    if (capture[7] == '3') psxgpu_set_tall(&player.gpu);
    uint32_t code = 0;
    while (code == 0 && player.left > 0 && *player.words != 0) code = play_record(&player);
    int status = code == 0 ? show(&player, command) : tell(&player.ended);
    psxgpu_free(&player.gpu);
    free(capture);
    return status;
}
