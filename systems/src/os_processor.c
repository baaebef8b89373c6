/* Whether the processor has the instructions that the program is compiled for. This file itself is compiled for any
 * processor of its kind.
 *
 * On x86-64 they are those of x86-64-v2, as the x86-64 psABI names them. Every arm64 has those of its program. */
#include "os.h"

#ifdef __x86_64__

/* Of leaf 1, register ecx. */
enum { SSE3 = 1 << 0, SSSE3 = 1 << 9, CMPXCHG16B = 1 << 13, SSE4_1 = 1 << 19, SSE4_2 = 1 << 20, POPCNT = 1 << 23 };
enum { NEEDED = SSE3 | SSSE3 | CMPXCHG16B | SSE4_1 | SSE4_2 | POPCNT, LAHF = 1 /* of leaf 80000001h */ };
enum { STANDARD_ERROR = 2, LACKING = 127 };

static uint32_t ecx_of(uint32_t leaf) {
    uint32_t eax = leaf, ebx, ecx = 0, edx;
    __asm__ volatile("cpuid" : "+a"(eax), "=b"(ebx), "+c"(ecx), "=d"(edx));
    return ecx;
}

int os_processor(void) {
    static const char line[] = "psxgpu: this processor lacks instructions of x86-64-v2: use another machine\n";
    if ((ecx_of(1) & NEEDED) == NEEDED && (ecx_of(0x80000001) & LAHF) != 0) return 0;
    os_write(STANDARD_ERROR, line, sizeof line - 1);
    return LACKING;
}

#else

int os_processor(void) { return 0; }

#endif
