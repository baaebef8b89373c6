/* What the machine calls of a C library and of the compiler's own, for a module that has neither: a heap in the module's
 * memory, functions that move bytes, and products of 128 bits.
 *
 * The heap is a row of blocks from the end of the module's data on. Each is preceded by a header with its size. malloc
 * returns the first free block that is large enough. On its way it joins free neighbours, and the last block grows with
 * the module's memory. A machine takes a dozen blocks, so the way is short. */
#include <stdlib.h>

enum { UNIT = 16, PAGE = 65536 };

/* A larger block is refused at once: the module that runs has addresses of 32 bits. */
static const size_t MOST = (size_t)1 << 32;

struct header { size_t size, taken; };

extern unsigned char __heap_base;
static struct header *first, *end;

static struct header *next_of(struct header *block) { return (struct header *)((char *)(block + 1) + block->size); }

/* Makes the module's memory reach to this address. */
static int reach(size_t to) {
    size_t have = __builtin_wasm_memory_size(0) * PAGE;
    return to <= have || __builtin_wasm_memory_grow(0, (to - have + PAGE - 1) / PAGE) != (size_t)-1;
}

/* Grows a block over the free ones after it, and the last block over the memory after it. Returns whether it has `size`
 * bytes then. */
static int widen(struct header *block, size_t size) {
    while (next_of(block) != end && !next_of(block)->taken)
        block->size += sizeof *block + next_of(block)->size;
    if (block->size < size && next_of(block) == end && reach((size_t)(block + 1) + size)) {
        block->size = size;
        end = next_of(block);
    }
    return block->size >= size;
}

/* Takes `size` bytes of a block, and leaves the rest free. */
static void *take(struct header *block, size_t size) {
    if (block->size >= size + sizeof *block + UNIT) {
        struct header *rest = (struct header *)((char *)(block + 1) + size);
        rest->size = block->size - size - sizeof *block;
        rest->taken = 0;
        block->size = size;
    }
    block->taken = 1;
    return block + 1;
}

static size_t in_units(size_t size) { return (size + UNIT - 1) / UNIT * UNIT; }

void *malloc(size_t size) {
    if (size > MOST) return NULL;
    if (first == NULL) first = end = (struct header *)in_units((size_t)&__heap_base);
    struct header *block = first;
    for (; block != end; block = next_of(block))
        if (!block->taken && widen(block, in_units(size))) return take(block, in_units(size));
    if (!reach((size_t)(block + 1) + in_units(size))) return NULL;
    block->size = in_units(size);
    end = next_of(block);
    return take(block, in_units(size));
}

void free(void *at) {
    if (at != NULL) ((struct header *)at - 1)->taken = 0;
}

void *realloc(void *at, size_t size) {
    if (at == NULL || size > MOST) return at == NULL ? malloc(size) : NULL;
    struct header *block = (struct header *)at - 1;
    size_t had = block->size;
    if (widen(block, in_units(size))) return take(block, in_units(size));
    void *now = malloc(size);
    if (now == NULL) return NULL;
    __builtin_memcpy(now, at, had);
    free(at);
    return now;
}

/* With the module's instructions for bytes these are one instruction each. */
void *memcpy(void *to, const void *from, size_t size) { return __builtin_memcpy(to, from, size); }

void *memmove(void *to, const void *from, size_t size) { return __builtin_memmove(to, from, size); }

void *memset(void *to, int byte, size_t size) { return __builtin_memset(to, byte, size); }

/* The product of two whole numbers of 128 bits, which the compiler calls by this name: by halves of words of 64 bits. */
typedef unsigned __int128 wide;

static const unsigned long LOW = 0xffffffff;

/* The product of two words, whole. */
static wide product(unsigned long a, unsigned long b) {
    unsigned long low = (a & LOW) * (b & LOW);
    unsigned long one = (a >> 32) * (b & LOW) + (low >> 32);
    unsigned long other = (a & LOW) * (b >> 32) + (one & LOW);
    unsigned long high = (a >> 32) * (b >> 32) + (one >> 32) + (other >> 32);
    return (wide)high << 64 | other << 32 | (low & LOW);
}

wide __multi3(wide a, wide b) {
    unsigned long a_low = (unsigned long)a, b_low = (unsigned long)b;
    unsigned long crossed = a_low * (unsigned long)(b >> 64) + (unsigned long)(a >> 64) * b_low;
    return product(a_low, b_low) + ((wide)crossed << 64);
}
