/* Of macOS: what os_posix.c needs. */
#include <stddef.h>
ptrdiff_t read(int file, void *bytes, size_t size);
ptrdiff_t write(int file, const void *bytes, size_t size);
int close(int file);
int isatty(int file);
int access(const char *path, int mode);
#define F_OK 0
