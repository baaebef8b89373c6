/* psxgpu_record: a GPU plugin of the PSEmu Pro interface (pcsxr and its kin) that hands every call to another GPU
   plugin and records what passes, as a capture for psxgpu_tool. `build` builds it. Settings, from the environment:

       PSXGPU_CAPTURE  the file to write (psxgpu.capture)
       PSXGPU_PLUGIN   the plugin that draws (/usr/lib/x86_64-linux-gnu/psemu/libDFXVideo.so)
       PSXGPU_DMA      flat: the words that DMA brings; ram: main memory and the starts of channel 2 (flat)
       PSXGPU_FROM     the recording begins after this many frames, with the state before it; `key`: not before the key
                       or the signal (0)
       PSXGPU_FRAMES   the emulator is ended (SIGINT) after this many recorded frames; 0: never (0)
       PSXGPU_SPLIT    after this many MB a new file begins (NAME.2, NAME.3 ..), with the state before it; 0: never,
                       and the recording ends where a player takes no more (1000)
       PSXGPU_POLLS    of consecutive reads of the status word, keep this many (all)
       PSXGPU_CHECK    1: also write NAME.reads, what the program read, as `play` prints it, and NAME.vram, video memory
                       of the plugin that draws at the end, as `vram` writes it (0)

   The key F11 and SIGUSR1 end the recording at the next frame, or begin a new one. SIGTERM and SIGHUP end recording and
   emulator at the next frame; twice, at once. */
#define _GNU_SOURCE
#include <signal.h>
#include <unistd.h>
#include "drawing.h"
#include "recording.h"

#pragma GCC visibility push(default)

char *PSEgetLibName(void) { return (char *)"psxgpu_record"; }
unsigned long PSEgetLibType(void) { return 2; }
unsigned long PSEgetLibVersion(void) { return 1 << 16 | 1 << 8; }

long GPUinit(void) {
    load_drawing();
    recording_open();
    return drawing.init();
}

long GPUshutdown(void) {
    recording_end();
    return drawing.shutdown();
}

static void gp0(uint32_t word) {
    record.polled = 0;
    ports_gp0(&record.ports, word);
    psxgpu_capture_gp0(&record.capture, word);
}

static void gp0_words(const uint32_t *words, int n) {
    int i;
    for (i = 0; i < n; i++) gp0(words[i]);
}

void GPUwriteData(uint32_t word) {
    gp0(word);
    drawing.writeData(word);
}

void GPUwriteStatus(uint32_t word) {
    record.polled = 0;
    ports_gp1(&record.ports, word);
    psxgpu_capture_gp1(&record.capture, word);
    drawing.writeStatus(word);
}

uint32_t GPUreadStatus(void) {
    const uint32_t word = drawing.readStatus();
    if (record.polled++ < record.polls) {
        psxgpu_capture_stat(&record.capture);
        if (record.reads) fprintf(record.reads, "%08x\n", word);
    }
    return word;
}

static void was_read(uint32_t word) {
    record.polled = 0;
    ports_read(&record.ports);
    psxgpu_capture_read(&record.capture);
    if (record.reads) fprintf(record.reads, "%08x\n", word);
}

uint32_t GPUreadData(void) {
    const uint32_t word = drawing.readData();
    was_read(word);
    return word;
}

/* Records n words as a start of channel 2. Registers cannot be seen here, so they are made: mode 1, in blocks of 16
   words where that divides n, else of one. Answers 0 where the words do not lie in main memory, as far as that is
   known. */
static int as_start(const uint32_t *words, int n, uint32_t chcr) {
    const uint32_t bcr = n % 16 ? (uint32_t)n << 16 | 1 : (uint32_t)n / 16 << 16 | 16;
    if (!record.ram || n <= 0 || words < record.ram || words + n > record.ram + PSXGPU_RAM_WORDS) return 0;
    if (n % 16 && n > 0xFFFF) return 0;
    return !psxgpu_capture_dma(&record.capture, 2, (uint32_t)(words - record.ram) * 4, bcr, chcr, record.ram);
}

void GPUwriteDataMem(uint32_t *words, int n) {
    int i;
    if (as_start(words, n, 0x01000201))
        for (i = 0; i < n; i++) ports_gp0(&record.ports, words[i]);
    else gp0_words(words, n);
    record.polled = 0;
    drawing.writeDataMem(words, n);
}

void GPUreadDataMem(uint32_t *words, int n) {
    const int starts = as_start(words, n, 0x01000200);
    int i;
    drawing.readDataMem(words, n);
    for (i = 0; i < n; i++) {
        if (starts) ports_read(&record.ports);
        else was_read(words[i]);
    }
    record.polled = 0;
}

/* A list that does not end is recorded once around, as words. */
long GPUdmaChain(uint32_t *ram, uint32_t first) {
    static uint32_t seen[PSXGPU_RAM_WORDS], walk; /* the last walk that met a node */
    uint32_t at = first & 0xFFFFFF, node, i;
    int starts;
    if (record.wants_ram) record.ram = ram;
    starts = record.ram && !psxgpu_capture_dma(&record.capture, 2, first, 0, 0x01000401, ram);
    walk++;
    for (; node = at / 4 % PSXGPU_RAM_WORDS, !(at & 0x800000) && seen[node] != walk; at = ram[node] & 0xFFFFFF) {
        seen[node] = walk;
        for (i = 1; i <= ram[node] >> 24; i++) {
            const uint32_t word = ram[(node + i) % PSXGPU_RAM_WORDS];
            if (starts) ports_gp0(&record.ports, word);
            else gp0(word);
        }
    }
    record.polled = 0;
    return drawing.dmaChain(ram, first);
}

void GPUupdateLace(void) {
    const int ends = recording_frame();
    drawing.updateLace();
    if (ends) kill(getpid(), SIGINT);
}

long GPUfreeze(uint32_t what, struct freeze *state) {
    const long answer = drawing.freeze(what, state);
    if (what == 0 && answer) recording_loaded();
    return answer;
}

void GPUkeypressed(int key) {
    if (key == 0xFFC8) recording_toggle(); /* F11 */
    else if (drawing.keypressed) drawing.keypressed(key);
}

/* The rest is handed on as it is. */
long GPUopen(unsigned long *display, char *caption, char *config) { return drawing.open(display, caption, config); }
long GPUclose(void) { return drawing.close(); }
long GPUtest(void) { return 0; }
void GPUabout(void) {}

long GPUconfigure(void) {
    load_drawing();
    return drawing.configure ? drawing.configure() : 0;
}

void GPUdisplayText(char *text) { if (drawing.displayText) drawing.displayText(text); }
void GPUmakeSnapshot(void) { if (drawing.makeSnapshot) drawing.makeSnapshot(); }
long GPUgetScreenPic(unsigned char *to) { return drawing.getScreenPic ? drawing.getScreenPic(to) : -1; }
long GPUshowScreenPic(unsigned char *from) { return drawing.showScreenPic ? drawing.showScreenPic(from) : -1; }
void GPUclearDynarec(void (*back)(void)) { if (drawing.clearDynarec) drawing.clearDynarec(back); }
void GPUvBlank(int on) { if (drawing.vBlank) drawing.vBlank(on); }
void GPUhSync(int line) { if (drawing.hSync) drawing.hSync(line); }
void GPUcursor(int player, int x, int y) { if (drawing.cursor) drawing.cursor(player, x, y); }

void GPUvisualVibration(unsigned long small, unsigned long big) {
    if (drawing.visualVibration) drawing.visualVibration(small, big);
}
