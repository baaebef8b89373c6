/* Plays an emulator to the plugin that records: test_plugin PLUGIN < script. With -DDRAWING it is a plugin that draws
   nothing. test_plugin.py and test_ports.py have the scripts, and say what has to come out. */
#define _GNU_SOURCE
#include <dlfcn.h>
#include <signal.h>
#include <stdint.h>
#include <stdio.h>
#include <stdlib.h>
#include <string.h>
#include "drawing.h"

#ifdef DRAWING

static uint32_t reads;

long GPUinit(void) { return 0; }
long GPUshutdown(void) { return 0; }

/* pcsxr has loaded libX11. */
long GPUopen(unsigned long *display, char *caption, char *config) {
    void *(*open_display)(const char *);
    *(void **)&open_display = dlsym(RTLD_DEFAULT, "XOpenDisplay");
    *display = open_display ? (unsigned long)open_display(NULL) : 0;
    return !caption && !config;
}

long GPUclose(void) { return 0; }
void GPUupdateLace(void) {}
uint32_t GPUreadStatus(void) { return 0x14802000; }
uint32_t GPUreadData(void) { return 0x11110000 + reads++; }
void GPUwriteStatus(uint32_t word) { (void)word; }
void GPUwriteData(uint32_t word) { (void)word; }
void GPUwriteDataMem(uint32_t *words, int n) { (void)words, (void)n; }
long GPUdmaChain(uint32_t *ram, uint32_t first) { return !ram && !first; }

void GPUreadDataMem(uint32_t *words, int n) {
    while (n-- > 0) *words++ = GPUreadData();
}

long GPUfreeze(uint32_t what, struct freeze *state) {
    uint32_t k;
    if (what != 1) return 1;
    state->status = 0x14801E0A;
    for (k = 3; k < 9; k++) state->control[k] = k << 24 | 1;
    for (k = 0; k < 512 * 1024; k++) state->cells[k] = (uint16_t)(3 * k);
    return 1;
}

#else

static struct drawing plugin;
static uint32_t ram[524288];
static struct freeze saved;

static void on_interrupt(int which) {
    (void)which;
    puts("ended");
    plugin.shutdown();
    exit(0);
}

static int load(const char *path) {
    void *library = dlopen(path, RTLD_NOW);
    if (!library) return fprintf(stderr, "%s\n", dlerror());
#define CALL(answer, name, takes) *(void **)&plugin.name = dlsym(library, "GPU" #name);
    NEEDED_CALLS(CALL)
    OTHER_CALLS(CALL)
#undef CALL
    return 0;
}

/* One line of the script: a word, and two numbers. */
static void act(const char *what, uint32_t a, uint32_t b) {
    uint32_t i;
    if (!strcmp(what, "gp0")) plugin.writeData(a);
    else if (!strcmp(what, "gp1")) plugin.writeStatus(a);
    else if (!strcmp(what, "many")) for (i = 0; i < b; i++) plugin.writeData(a);
    else if (!strcmp(what, "read")) printf("%08x\n", (unsigned)plugin.readData());
    else if (!strcmp(what, "stat")) printf("%08x\n", (unsigned)plugin.readStatus());
    else if (!strcmp(what, "ram")) ram[a / 4] = b;
    else if (!strcmp(what, "list")) plugin.dmaChain(ram, a);
    else if (!strcmp(what, "in")) plugin.writeDataMem(ram + a / 4, (int)b);
    else if (!strcmp(what, "out")) plugin.readDataMem(ram + a / 4, (int)b);
    else if (!strcmp(what, "frame")) for (i = 0; i < a; i++) plugin.updateLace();
    else if (!strcmp(what, "key")) plugin.keypressed((int)a);
    else if (!strcmp(what, "signal")) raise((int)a);
    else if (!strcmp(what, "load")) plugin.freeze(0, &saved);
}

int main(int count, char **words) {
    char what[16];
    unsigned a, b;
    if (count != 2 || load(words[1])) return 9;
    signal(SIGINT, on_interrupt);
    plugin.init();
    while (scanf("%15s %x %x", what, &a, &b) == 3) act(what, a, b);
    plugin.close();
    plugin.shutdown();
    return 0;
}

#endif
