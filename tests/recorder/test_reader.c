/* Reads a capture with psxgpu_capture.h, as C99 and as C++17: test_reader < CAPTURE. Prints a line for each event, in the
   form that test_reader.py has, and ends as a player does. With an argument, the bytes are read from memory. */
#ifdef INTERRUPTED
#include <errno.h>
#include <stdio.h>
/* Of four reads, a signal interrupts three, each after half of its bytes. */
static size_t interrupted(void *to, size_t size, size_t count, FILE *file) {
    static int turns;
    if (turns++ % 4 == 3) return fread(to, size, count, file);
    count = fread(to, size, count / 2, file);
    errno = EINTR;
    return count;
}
#define fread interrupted
#endif
#ifdef NO_MEMORY
#include <stdlib.h>
static void *no_memory(void) { return NULL; }
#define realloc(bytes, size) no_memory()
#endif
#include "psxgpu_capture.h"

static void print_words(const psxgpu_reader *in, uint32_t count) {
    uint32_t k;
    for (k = 0; k < count; k++) printf(" %08lx", (unsigned long)psxgpu_reader_word(in, k));
}

/* Prints event k of a record. */
static void print_event(const psxgpu_reader *in, uint32_t k) {
    printf("%llu %u", (unsigned long long)(in->events + 1 + k), (unsigned)in->kind);
    switch (in->kind) {
    case PSXGPU_RAM:
        printf(" %08lx", (unsigned long)(psxgpu_reader_word(in, 0) + 4 * k));
        printf(" %08lx", (unsigned long)psxgpu_reader_word(in, k + 1));
        break;
    case PSXGPU_GP0: printf(" %08lx", (unsigned long)psxgpu_reader_word(in, k)); break;
    case PSXGPU_GP1: print_words(in, 1); break;
    case PSXGPU_DMA: case PSXGPU_BEGIN:
        printf(" %u", (unsigned)in->count);
        print_words(in, 3);
        break;
    default: break;
    }
    printf("\n");
}

int main(int count, char **words) {
    psxgpu_reader loaded, in;
    uint32_t k;
    int status, error = psxgpu_reader_load(&loaded, stdin);
    (void)words;
    if (error) {
        fprintf(stderr, "error %d\n", error);
        psxgpu_reader_free(&loaded);
        return 3;
    }
    in = loaded;
    if (count > 1) psxgpu_reader_begin(&in, loaded.bytes, loaded.size);
    while (psxgpu_reader_next(&in))
        for (k = 0; k < psxgpu_reader_events(&in); k++) print_event(&in, k);
    status = psxgpu_reader_status(&in, stderr);
    if (psxgpu_reader_next(&in)) status = 9;
    psxgpu_reader_free(&loaded);
    return status;
}
