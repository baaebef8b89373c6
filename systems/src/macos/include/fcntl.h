/* Of macOS: what os_posix.c needs. */
int open(const char *path, int flags, ...);
#define O_RDONLY 0
#define O_CLOEXEC 0x1000000
