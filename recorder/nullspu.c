/* nullspu: an SPU plugin of the PSEmu Pro interface without sound, for machines without a sound card. */
#include <stdint.h>
#include <string.h>

static unsigned short registers[256], memory[262144];
static unsigned at;

/* What a saved state has of it. */
struct frozen {
    char name[8];
    uint32_t version, size;
    unsigned short registers[256], memory[262144];
};

char *PSEgetLibName(void) { return (char *)"nullspu"; }
unsigned long PSEgetLibType(void) { return 4; }
unsigned long PSEgetLibVersion(void) { return 1 << 16; }

long SPUinit(void) { return 0; }
long SPUshutdown(void) { return 0; }
long SPUopen(void) { return 0; }
long SPUclose(void) { return 0; }
long SPUconfigure(void) { return 0; }
long SPUtest(void) { return 0; }
void SPUabout(void) {}

void SPUwriteRegister(unsigned long place, unsigned short value) {
    registers[place >> 1 & 255] = value;
    if ((place & 0xFFF) == 0xDA6) at = value * 4u; /* the address of transfers */
}

unsigned short SPUreadRegister(unsigned long place) { return registers[place >> 1 & 255]; }
void SPUwriteDMA(unsigned short value) { memory[at++ & 262143] = value; }
unsigned short SPUreadDMA(void) { return memory[at++ & 262143]; }

void SPUwriteDMAMem(unsigned short *from, int n) {
    for (; n > 0; n--) SPUwriteDMA(*from++);
}

void SPUreadDMAMem(unsigned short *to, int n) {
    for (; n > 0; n--) *to++ = SPUreadDMA();
}

/* 0: takes a state; 1: gives it; 2: tells its size. */
long SPUfreeze(uint32_t what, struct frozen *state) {
    if (what == 0) {
        memcpy(registers, state->registers, sizeof registers);
        memcpy(memory, state->memory, sizeof memory);
        return 1;
    }
    memcpy(state->name, "nullspu", 8);
    state->version = 1;
    state->size = sizeof *state;
    if (what == 2) return 1;
    memcpy(state->registers, registers, sizeof registers);
    memcpy(state->memory, memory, sizeof memory);
    return 1;
}

void SPUplaySample(unsigned char sample) { (void)sample; }
void SPUplayADPCMchannel(void *samples) { (void)samples; }
void SPUplayCDDAchannel(short *samples, int n) { (void)samples, (void)n; }
void SPUregisterCallback(void (*back)(void)) { (void)back; }
void SPUregisterCDDAVolume(void (*back)(unsigned short, unsigned short)) { (void)back; }
void SPUasync(uint32_t cycles) { (void)cycles; }
