/* The GPU plugin that draws, of the PSEmu Pro interface. What is missing in it is NULL.

   GPUopen of a plugin for pcsxr has to set *display to an X display: pcsxr passes it to its plugin for the keys, which
   crashes if it is not one. */
#ifndef DRAWING_H
#define DRAWING_H
#include <stdint.h>

typedef struct freeze {
    uint32_t version, status, control[256];
    uint16_t cells[1024 * 1024];
} freeze;

#define NEEDED_CALLS(CALL)                                        \
    CALL(long, init, (void))                                      \
    CALL(long, shutdown, (void))                                  \
    CALL(long, open, (unsigned long *, char *, char *))           \
    CALL(long, close, (void))                                     \
    CALL(void, updateLace, (void))                                \
    CALL(uint32_t, readStatus, (void))                            \
    CALL(uint32_t, readData, (void))                              \
    CALL(void, readDataMem, (uint32_t *, int))                    \
    CALL(void, writeStatus, (uint32_t))                           \
    CALL(void, writeData, (uint32_t))                             \
    CALL(void, writeDataMem, (uint32_t *, int))                   \
    CALL(long, dmaChain, (uint32_t *, uint32_t))                  \
    CALL(long, freeze, (uint32_t, struct freeze *))

#define OTHER_CALLS(CALL)                                         \
    CALL(long, configure, (void))                                 \
    CALL(void, keypressed, (int))                                 \
    CALL(void, displayText, (char *))                             \
    CALL(void, makeSnapshot, (void))                              \
    CALL(long, getScreenPic, (unsigned char *))                   \
    CALL(long, showScreenPic, (unsigned char *))                  \
    CALL(void, clearDynarec, (void (*)(void)))                    \
    CALL(void, vBlank, (int))                                     \
    CALL(void, hSync, (int))                                      \
    CALL(void, visualVibration, (unsigned long, unsigned long))   \
    CALL(void, cursor, (int, int, int))

struct drawing {
#define CALL(answer, name, takes) answer (*name) takes;
    NEEDED_CALLS(CALL)
    OTHER_CALLS(CALL)
#undef CALL
};

extern struct drawing drawing;

/* Loads the plugin at PSXGPU_PLUGIN once. If that is not a plugin, writes a line and ends the process. */
void load_drawing(void);

#endif
