/* Passes the output of a whole capture to a function of the caller. Proved code calls no function that it is passed. */
#include "psxgpu.h"

enum { PIECE = 16384 };

uint32_t psxgpu_play_to(uint32_t mode, uint32_t cell, const uint8_t *capture, size_t length, psxgpu_sink *sink,
                        void *user, psxgpu_ended *ended) {
    psxgpu_output output = PSXGPU_OUTPUT_NONE;
    uint8_t piece[PIECE];
    size_t at = 0, count;
    psxgpu_play_output(mode, cell, capture, length, &output, ended);
    while ((count = psxgpu_output_copy(&output, at, piece, PIECE)) != 0) {
        if (sink(user, piece, count) != 0) {
            *ended = (psxgpu_ended){ .written = at, .code = PSXGPU_SINK_REFUSED };
            break;
        }
        at += count;
    }
    psxgpu_output_free(&output);
    return ended->code;
}
