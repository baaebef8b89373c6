/* The recording that the plugin makes: its settings, when it begins and ends, and its parts. */
#ifndef RECORDING_H
#define RECORDING_H
#include <stdio.h>
#include "ports.h"
#include "psxgpu_capture.h"

typedef struct recording {
    psxgpu_capture capture;
    ports ports;                /* followed from the start on, whether or not a recording runs */
    FILE *reads;                /* what the program reads, as `play` prints it; NULL if it is not wanted */
    const uint32_t *ram;        /* main memory, once it is known and if it is to be recorded; else NULL */
    int wants_ram;
    uint32_t polls, polled;     /* consecutive reads of the status: the maximum recorded, and the number so far */
} recording;

extern recording record;

/* Reads the settings from the environment. Starts a recording, unless it is to begin later. */
void recording_open(void);

/* A vertical blank: marks it, and begins and ends recordings. Returns 1 if the emulator is to end. */
int recording_frame(void);

/* Ends the running recording, and reports it on standard error. Also reports why a recording did not begin. */
void recording_end(void);

/* The key or the signal: the recording is ended, or a new one begun, at the next vertical blank. */
void recording_toggle(void);

/* A saved state was loaded into the plugin that draws. */
void recording_loaded(void);

#endif
