#define _GNU_SOURCE
#include <signal.h>
#include "drawing.h"
#include "recording.h"

recording record;

static struct { char path[4096]; uint64_t split; uint32_t from, frames; int check, waits; } settings;
static struct freeze frozen;
static char path[sizeof settings.path + 16]; /* of the part that runs */
static uint32_t frame, recorded, parts;
static uint64_t before; /* bytes of the state with which the part that runs begins */
static int runs, wanted, failed; /* failed: the last file could not be opened */
static volatile sig_atomic_t toggled, ending;

static uint32_t number(const char *name, uint32_t otherwise) {
    const char *value = getenv(name);
    return value && *value ? (uint32_t)strtoul(value, NULL, 10) : otherwise;
}

static int is(const char *name, const char *word) {
    const char *value = getenv(name);
    return value && !strcmp(value, word);
}

static void tell_lost(const char *ending_of_name) {
    fprintf(stderr, "psxgpu_record: failed: %s.%s: %s\n", path, ending_of_name, strerror(errno));
}

/* A file beside the recording. */
static FILE *beside(const char *ending_of_name) {
    char name[sizeof path + 16];
    FILE *file;
    snprintf(name, sizeof name, "%s.%s", path, ending_of_name);
    file = fopen(name, "wb");
    if (!file) tell_lost(ending_of_name);
    return file;
}

static int freeze_now(void) {
    frozen.version = 1;
    return drawing.freeze(1, &frozen) != 0;
}

/* After the state: the words of GP1 in force, and the interrupt if there is one. */
static void put_state(void) {
    static const unsigned char order[6] = {8, 6, 7, 5, 4, 3};
    uint32_t gp1[6];
    size_t n = 0;
    int i;
    for (i = 0; i < 6; i++)
        if (record.ports.control[order[i]]) gp1[n++] = record.ports.control[order[i]];
    if (freeze_now()) psxgpu_capture_state(&record.capture, frozen.cells, record.ports.settings, gp1, n);
    else fprintf(stderr, "psxgpu_record: %s: the plugin that draws does not tell its state\n", path);
    if (record.ports.interrupt) psxgpu_capture_gp0(&record.capture, 0x1F000000);
}

static void begin(void) {
    int error;
    wanted = 0;
    parts++;
    snprintf(path, sizeof path, parts > 1 ? "%s.%u" : "%s", settings.path, parts);
    error = psxgpu_capture_open(&record.capture, path);
    failed = error != 0;
    if (failed) {
        fprintf(stderr, "psxgpu_record: failed: %s: %s\n", path, strerror(error));
        return;
    }
    runs = 1;
    if (settings.check) record.reads = beside("reads");
    if (frame) put_state();
    psxgpu_capture_flush(&record.capture);
    before = record.capture.bytes;
}

static void write_cells(void) {
    FILE *file = freeze_now() ? beside("vram") : NULL;
    size_t written;
    if (!file) return;
    written = psxgpu_write_(file, frozen.cells, 1048576);
    if (fclose(file) || written != 1048576) tell_lost("vram");
}

static void end_reads(void) {
    const int lost = ferror(record.reads);
    if (fclose(record.reads) || lost) tell_lost("reads");
    record.reads = NULL;
}

/* A recording was to begin, and something stayed open at each vertical blank since then: says what. */
static void tell_open(void) {
    const ports *p = &record.ports;
    wanted = 0;
    fprintf(stderr, "psxgpu_record: failed: %s: not begun, since ", settings.path);
    if (p->data) fprintf(stderr, "a load is open: %u data words are missing\n", p->data);
    else if (p->polyline) fprintf(stderr, "a polyline %08x is open: its end word is missing\n", p->first);
    else if (p->need) fprintf(stderr, "a packet %08x is open: it has %u of %u words\n", p->first, p->have, p->need);
    else fprintf(stderr, "a store is open: %u reads are missing\n", p->reads);
}

void recording_end(void) {
    const uint32_t frames = record.capture.frames;
    int error;
    if (!runs && wanted && !failed) tell_open();
    if (!runs) return;
    runs = 0;
    error = psxgpu_capture_close(&record.capture);
    if (settings.check) write_cells();
    if (record.reads) end_reads();
    fprintf(stderr, "psxgpu_record: %s%s: %u frames, %llu bytes%s%s\n", error ? "failed: " : "", path, frames,
            (unsigned long long)record.capture.bytes, error ? ", and then: " : "", error ? strerror(error) : "");
}

static void on_signal(int which) {
    if (which == SIGUSR1) toggled = 1;
    else ending = which;
}

void recording_open(void) {
    const struct sigaction toggle = {.sa_handler = on_signal};
    const struct sigaction end = {.sa_handler = on_signal, .sa_flags = (int)SA_RESETHAND};
    const char *name = getenv("PSXGPU_CAPTURE");
    static int is_open;
    if (is_open++) return;
    snprintf(settings.path, sizeof settings.path, "%s", name && *name ? name : "psxgpu.capture");
    settings.split = (uint64_t)number("PSXGPU_SPLIT", 1000) << 20;
    settings.from = number("PSXGPU_FROM", 0);
    settings.waits = is("PSXGPU_FROM", "key");
    settings.frames = number("PSXGPU_FRAMES", 0);
    settings.check = (int)number("PSXGPU_CHECK", 0);
    record.wants_ram = is("PSXGPU_DMA", "ram");
    record.polls = number("PSXGPU_POLLS", UINT32_MAX);
    sigaction(SIGUSR1, &toggle, NULL);
    sigaction(SIGTERM, &end, NULL);
    sigaction(SIGHUP, &end, NULL);
    atexit(recording_end);
    if (!settings.waits && !settings.from) begin();
}

void recording_toggle(void) { toggled = 1; }

void recording_loaded(void) {
    int i;
    if (!freeze_now()) return;
    record.ports.settings[0] = frozen.status & 0x7FF;
    record.ports.settings[5] = frozen.status >> 11 & 3;
    for (i = 3; i < 9; i++) record.ports.control[i] = frozen.control[i];
    record.ports.need = record.ports.data = record.ports.reads = 0;
    record.ports.polyline = record.ports.interrupt = 0;
    if (runs) put_state();
}

/* Ends the recording that runs where it has to be, or where its next part can begin; answers 1 where that is all. */
static int end_if_due(void) {
    const int lost = !record.capture.file, all = settings.frames && recorded >= settings.frames;
    const int full = settings.split && record.capture.bytes - before >= settings.split && ports_idle(&record.ports);
    if (!lost && !all && !full && !toggled) return 0;
    if (full && !toggled && !all) wanted = 1;
    toggled = 0;
    recording_end();
    return settings.frames && (lost || all);
}

int recording_frame(void) {
    int all = 0;
    frame++;
    if (runs) {
        recorded++;
        psxgpu_capture_frame(&record.capture);
        all = end_if_due();
    } else if (toggled) {
        toggled = 0;
        wanted = 1;
    }
    if (!settings.waits && frame == settings.from) wanted = 1;
    if (wanted && !runs && ports_idle(&record.ports)) begin();
    if (ending) {
        recording_end();
        raise(ending); /* its action is the usual one again */
    }
    return all || (failed && settings.frames);
}
