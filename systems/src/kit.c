/* What a program of the kit calls beside the C library and the heap (c/heap.c), for Linux with glibc: the kit brings
 * these built for x86-64 alone. */
#include <errno.h>
#include "os.h"

/* glibc passes these to what runs before main. */
__attribute__((constructor)) static void keep(int argc, char **argv) { os_keep_words((size_t)argc, argv); }

int32_t rattle_errno(void) { return errno; }

void rattle_set_errno(int32_t number) { errno = number; }
