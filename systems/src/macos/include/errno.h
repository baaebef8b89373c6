/* What os_posix.c needs of macOS, where there is no SDK: these headers, and libSystem.tbd to link. */
int *__error(void);
#define errno (*__error())
#define EAGAIN 35
#define ELOOP 62
#define ENAMETOOLONG 63
#define EOVERFLOW 84
