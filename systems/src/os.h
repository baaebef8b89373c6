/* What the program's module calls of a system that the kit does not know, in the place of Linux's calls. `retarget.py`
 * gives the calls these names. Numbers of errors and flags are Linux's on every system.
 *
 * os_SYSTEM.c has the calls of a system and its `main`; os_words.c and os_texts.c are the same for all of them. */
#ifndef PSXGPU_OS_H
#define PSXGPU_OS_H
#include <stddef.h>
#include <stdint.h>

/* The program itself. Returns its status. */
int rattle_main(void);

/* Each returns how much was moved, a file's number or 0, and -1 on failure: rattle_errno then has the cause. */
int64_t os_write(int32_t file, const void *bytes, size_t size);
int64_t os_read(int32_t file, void *bytes, size_t size);
int32_t os_open(const char *path, int32_t flags, ...); /* for reading; the flags are ignored */
int32_t os_close(int32_t file);
int32_t os_isatty(int32_t file); /* 1 for a terminal, else 0 */
/* Returns 0 if there is a file or a folder of this name. The program asks Linux's statx for no more: it writes nothing to
 * `found`, and the other arguments are ignored. */
int32_t os_exists(int32_t folder, const char *path, int32_t flags, int32_t wanted, void *found);
int32_t rattle_errno(void);
void rattle_set_errno(int32_t number);

/* os_texts.c: stores the text of an error, cut to `room` bytes with its 0. Returns 0. */
int32_t os_strerror(int32_t number, char *text, size_t room);

/* os_words.c. */
void os_keep_words(size_t count, char **words); /* called first, by main; the array stays the caller's */
size_t rattle_arg_count(void);
int64_t rattle_arg(size_t i, char *room, size_t size); /* its length; -1 without such a word, -2 if it does not fit */

/* os_processor.c: returns 0 if the processor has the instructions of the program. Otherwise writes a line to standard
 * error and returns the status with which `main` has to end. */
int os_processor(void);

#endif
