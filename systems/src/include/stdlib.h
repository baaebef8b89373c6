/* For code without a C library: the heap of web/memory.c. */
#ifndef PSXGPU_STDLIB_H
#define PSXGPU_STDLIB_H
#include <stddef.h>
void *malloc(size_t size);
void *realloc(void *at, size_t size);
void free(void *at);
#endif
