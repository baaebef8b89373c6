/* A bare console for tests: a processor with memory, and a GPU that takes its time and draws nothing. */
#ifndef BARE_H
#define BARE_H
#include <stdint.h>

typedef struct counts {
    uint64_t words, packets, polls; /* written to GP0, executed, reads of the status word */
    uint64_t overflow;              /* words written to a full queue: a console loses them */
    uint64_t early;                 /* reads of the data port before the GPU had the word */
    uint64_t lost;                  /* resets while a packet was in the queue or at work */
    uint32_t most;                  /* words in the queue at most */
} counts;

extern uint64_t now; /* cycles since the start */
extern counts counted;

/* Opens the capture of what reaches the ports. `busy`: cycles of a packet that draws. Returns 0, or an errno. */
int gpu_open(const char *path, uint32_t busy);
int gpu_close(void);
void gpu_blank(void); /* a vertical blank */

uint32_t gpu_status(void);
uint32_t gpu_read(void);
void gpu_write(uint32_t word);
void gpu_control(uint32_t word);

#endif
