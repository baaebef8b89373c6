/* Reads words of GP0 as bytes, low byte first, and writes for each whether recorder/ports.h then has nothing open. */
#include <stdio.h>

#include "ports.h"

int main(void) {
    static ports state;
    unsigned char b[4];
    while (fread(b, 1, 4, stdin) == 4) {
        ports_gp0(&state, b[0] | b[1] << 8 | b[2] << 16 | (uint32_t)b[3] << 24);
        state.reads = 0;        /* a store is open until its words are read; its packet is complete */
        putchar(ports_idle(&state) ? '1' : '0');
    }
    return 0;
}
