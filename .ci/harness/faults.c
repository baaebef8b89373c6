/* Lets one call of a program fail, or all of them do little: loaded before a program by .ci/harness/faults.py.

   FAULT_KIND is memory, read, write or error (a write to standard error), and FAULT_AT the number of the call that
   fails, from 1 on; `short` lets each read give and each write take one byte, and `signal` lets a signal interrupt each
   read and each write three times in a row. At the end, the numbers of the calls are written to the file
   FAULT_COUNTS. */
#define _GNU_SOURCE
#include <errno.h>
#include <stdio.h>
#include <stdlib.h>
#include <string.h>
#include <sys/syscall.h>
#include <sys/uio.h>
#include <unistd.h>

void *__libc_malloc(size_t size);
void *__libc_calloc(size_t count, size_t size);
void *__libc_realloc(void *old, size_t size);
void *__libc_memalign(size_t alignment, size_t size);

enum kind { MEMORY, READ, WRITE, ERROR, KINDS };

static const char *const names[KINDS] = {"memory", "read", "write", "error"};
static unsigned long calls[KINDS];
static unsigned long at[KINDS];
static int is_short;
static int has_signals;

__attribute__((constructor)) static void begin(void)
{
    const char *name = getenv("FAULT_KIND");
    const char *number = getenv("FAULT_AT");
    for (int kind = 0; name && number && kind < KINDS; kind++)
        if (strcmp(name, names[kind]) == 0)
            at[kind] = strtoul(number, NULL, 10);
    is_short = name && strcmp(name, "short") == 0;
    has_signals = name && strcmp(name, "signal") == 0;
    memset(calls, 0, sizeof calls);
}

__attribute__((destructor)) static void end(void)
{
    char line[128];
    const char *path = getenv("FAULT_COUNTS");
    unsigned long said[KINDS];
    memcpy(said, calls, sizeof calls);
    FILE *file = path ? fopen(path, "w") : NULL;
    if (!file)
        return;
    snprintf(line, sizeof line, "%lu %lu %lu %lu\n", said[MEMORY], said[READ], said[WRITE], said[ERROR]);
    fputs(line, file);
    fclose(file);
}

/* Counts a call, and says whether it fails. */
static int fails(enum kind kind, int code)
{
    if (++calls[kind] != at[kind])
        return 0;
    errno = code;
    return 1;
}

/* Returns whether a signal interrupts a call on one of the standard streams: three calls of four, from the first on. */
static int is_interrupted(int file)
{
    static int turns[3];
    if (!has_signals || file < 0 || file > 2 || turns[file]++ % 4 == 3)
        return 0;
    errno = EINTR;
    return 1;
}

void *malloc(size_t size)
{
    return fails(MEMORY, ENOMEM) ? NULL : __libc_malloc(size);
}

void *calloc(size_t count, size_t size)
{
    return fails(MEMORY, ENOMEM) ? NULL : __libc_calloc(count, size);
}

void *realloc(void *old, size_t size)
{
    return fails(MEMORY, ENOMEM) ? NULL : __libc_realloc(old, size);
}

void *aligned_alloc(size_t alignment, size_t size)
{
    return fails(MEMORY, ENOMEM) ? NULL : __libc_memalign(alignment, size);
}

int posix_memalign(void **to, size_t alignment, size_t size)
{
    if (fails(MEMORY, ENOMEM))
        return ENOMEM;
    *to = __libc_memalign(alignment, size);
    return *to ? 0 : ENOMEM;
}

ssize_t read(int file, void *buffer, size_t size)
{
    if (is_interrupted(file))
        return -1;
    if (file == 0 && fails(READ, EIO))
        return -1;
    return syscall(SYS_read, file, buffer, is_short && size > 1 ? 1 : size);
}

ssize_t write(int file, const void *buffer, size_t size)
{
    if (is_interrupted(file))
        return -1;
    if (file == 1 && fails(WRITE, ENOSPC))
        return -1;
    if (file == 2 && fails(ERROR, EIO))
        return -1;
    return syscall(SYS_write, file, buffer, is_short && size > 1 ? 1 : size);
}

ssize_t writev(int file, const struct iovec *pieces, int count)
{
    for (int i = 0; i < count; i++)
        if (pieces[i].iov_len > 0)
            return write(file, pieces[i].iov_base, pieces[i].iov_len);
    return 0;
}
