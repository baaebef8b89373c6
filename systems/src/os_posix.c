/* os.h for macOS and other POSIX systems. */
#define _POSIX_C_SOURCE 200809L
#include <errno.h>
#include <fcntl.h>
#include <signal.h>
#include <unistd.h>
#include "os.h"

static int32_t last_error;

/* Up to 34 the numbers of errors are Linux's, except EAGAIN. */
static int32_t number_of(int error) {
    switch (error) {
    case EAGAIN: return 11;
    case ENAMETOOLONG: return 36;
    case ELOOP: return 40;
    case EOVERFLOW: return 75;
    default: return error;
    }
}

/* Returns what a call returned, and keeps the cause of a failure. */
static int64_t kept(int64_t result) {
    if (result < 0) last_error = number_of(errno);
    return result;
}

int64_t os_write(int32_t file, const void *bytes, size_t size) { return kept(write(file, bytes, size)); }

int64_t os_read(int32_t file, void *bytes, size_t size) { return kept(read(file, bytes, size)); }

int32_t os_open(const char *path, int32_t flags, ...) {
    (void)flags;
    return (int32_t)kept(open(path, O_RDONLY | O_CLOEXEC));
}

int32_t os_close(int32_t file) { return (int32_t)kept(close(file)); }

int32_t os_isatty(int32_t file) { return isatty(file); }

int32_t os_exists(int32_t folder, const char *path, int32_t flags, int32_t wanted, void *found) {
    (void)folder, (void)flags, (void)wanted, (void)found;
    return (int32_t)kept(access(path, F_OK));
}

int32_t rattle_errno(void) { return last_error; }

void rattle_set_errno(int32_t number) { last_error = number; }

int main(int argc, char **argv) {
    int lacking = os_processor();
    if (lacking) return lacking;
    os_keep_words((size_t)argc, argv);
    signal(SIGPIPE, SIG_IGN); /* a pipe that nobody reads is a failed write */
    return rattle_main();
}
