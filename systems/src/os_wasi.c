/* os.h for WASI, preview 1, without a C library.
 *
 * It is compiled with addresses of 64 bits, and systems/lower64.py makes the module one with 32. What WASI reads and writes
 * in memory has addresses of 32 bits. */
#include <stdlib.h>
#include "os.h"

#define WASI(name) __attribute__((import_module("wasi_snapshot_preview1"), import_name(#name))) extern

WASI(fd_read) int32_t wasi_read(int32_t file, uint32_t buffers, int32_t count, uint32_t moved);
WASI(fd_write) int32_t wasi_write(int32_t file, uint32_t buffers, int32_t count, uint32_t moved);
WASI(fd_close) int32_t wasi_close(int32_t file);
WASI(fd_fdstat_get) int32_t wasi_status(int32_t file, uint32_t status);
WASI(fd_prestat_get) int32_t wasi_folder(int32_t file, uint32_t folder);
WASI(fd_prestat_dir_name) int32_t wasi_folder_name(int32_t file, uint32_t name, uint32_t room);
WASI(path_open) int32_t wasi_open(int32_t folder, int32_t lookup, uint32_t path, uint32_t length, int32_t flags,
                                  int64_t rights, int64_t inherited, int32_t status, uint32_t opened);
WASI(path_filestat_get) int32_t wasi_file_status(int32_t folder, int32_t lookup, uint32_t path, uint32_t length,
                                                 uint32_t status);
WASI(args_sizes_get) int32_t wasi_word_sizes(uint32_t count, uint32_t bytes);
WASI(args_get) int32_t wasi_words(uint32_t words, uint32_t bytes);
WASI(proc_exit) void wasi_exit(int32_t status);

enum { NO_ENTRY = 44, CHARACTER_DEVICE = 2, FOLLOW_LINKS = 1, NO_MEMORY = 5, FIRST_FOLDER = 3, MOST_NAME = 1024 };
enum { FD_READ = 1 << 1, FD_SEEK = 1 << 2, FD_TELL = 1 << 5, FD_FILESTAT_GET = 1 << 21 }; /* rights */

struct buffer { uint32_t at, size; };

static int32_t last_error;

static uint32_t at(const void *address) { return (uint32_t)(uintptr_t)address; }

/* Linux's number of an error of WASI. */
static int32_t number_of(int32_t error) {
    static const struct { int32_t wasi, linux_number; } numbers[] = {
        { 2, 13 }, { 6, 11 }, { 8, 9 }, { 10, 16 }, { 22, 27 }, { 27, 4 }, { 28, 22 }, { 29, 5 }, { 31, 21 }, { 32, 40 },
        { 33, 24 }, { 37, 36 }, { 41, 23 }, { 43, 19 }, { 44, 2 }, { 48, 12 }, { 51, 28 }, { 54, 20 }, { 60, 6 },
        { 61, 75 }, { 63, 1 }, { 64, 32 }, { 76, 1 },
    };
    for (size_t k = 0; k < sizeof numbers / sizeof *numbers; k++)
        if (numbers[k].wasi == error) return numbers[k].linux_number;
    return 5;
}

/* Returns `value`, or -1 where there is an error, and keeps its number. */
static int64_t kept(int32_t error, int64_t value) {
    if (error == 0) return value;
    last_error = number_of(error);
    return -1;
}

int64_t os_write(int32_t file, const void *bytes, size_t size) {
    struct buffer buffer = { at(bytes), (uint32_t)size };
    uint32_t moved = 0;
    int32_t error = wasi_write(file, at(&buffer), 1, at(&moved));
    return kept(error, moved);
}

int64_t os_read(int32_t file, void *bytes, size_t size) {
    struct buffer buffer = { at(bytes), (uint32_t)size };
    uint32_t moved = 0;
    int32_t error = wasi_read(file, at(&buffer), 1, at(&moved));
    return kept(error, moved);
}

int32_t os_close(int32_t file) { return (int32_t)kept(wasi_close(file), 0); }

/* A character device in which no position can be set. */
int32_t os_isatty(int32_t file) {
    struct { unsigned char type; unsigned short flags; uint64_t rights, inherited; } status = { 0, 0, 0, 0 };
    return wasi_status(file, at(&status)) == 0 && status.type == CHARACTER_DEVICE
           && (status.rights & (FD_SEEK | FD_TELL)) == 0;
}

static size_t length_of(const char *text) {
    size_t n = 0;
    while (text[n] != 0) n++;
    return n;
}

/* The part of a path that is looked up in a folder of this name: a relative path as it is, and of an absolute one what
 * follows the folder. NULL where the path is not below the folder. */
static const char *part_in(const char *path, const char *folder, size_t length) {
    if (path[0] != '/') return path;
    size_t k = 0;
    while (k < length && path[k] == folder[k]) k++;
    if (k < length || (length > 1 && path[length] != '/')) return NULL;
    for (path += length; *path == '/';) path++;
    return path;
}

/* What is done with a path below a folder that the runtime opened. Returns an error of WASI. */
typedef int32_t use(int32_t folder, const char *part, int32_t *opened);

static int32_t open_for_reading(int32_t folder, const char *part, int32_t *opened) {
    return wasi_open(folder, FOLLOW_LINKS, at(part), (uint32_t)length_of(part), 0, FD_READ | FD_SEEK | FD_FILESTAT_GET, 0, 0,
                     at(opened));
}

static int32_t look(int32_t folder, const char *part, int32_t *opened) {
    uint64_t status[8];
    (void)opened;
    return wasi_file_status(folder, FOLLOW_LINKS, at(part), (uint32_t)length_of(part), at(status));
}

/* Does it in one of these folders, if the path is below it. */
static int32_t do_in(int32_t folder, uint32_t name_length, const char *path, use *does, int32_t *opened) {
    char name[MOST_NAME];
    if (name_length > sizeof name || wasi_folder_name(folder, at(name), name_length) != 0) return NO_ENTRY;
    while (name_length > 0 && name[name_length - 1] == 0) name_length--;
    const char *part = part_in(path, name, name_length);
    return part == NULL ? NO_ENTRY : does(folder, part, opened);
}

/* Does it in the first of these folders in which the path is found. Returns 0, or -1. */
static int32_t do_with(const char *path, use *does, int32_t *opened) {
    struct { uint32_t kind, name_length; } folder = { 0, 0 };
    int32_t error = NO_ENTRY;
    for (int32_t file = FIRST_FOLDER; wasi_folder(file, at(&folder)) == 0; file++) {
        int32_t found = do_in(file, folder.name_length, path, does, opened);
        if (found == 0) return 0;
        if (found != NO_ENTRY) error = found;
    }
    return (int32_t)kept(error, -1);
}

int32_t os_open(const char *path, int32_t flags, ...) {
    int32_t opened = -1;
    (void)flags;
    return do_with(path, open_for_reading, &opened) == 0 ? opened : -1;
}

int32_t os_exists(int32_t folder, const char *path, int32_t flags, int32_t wanted, void *found) {
    int32_t opened = -1;
    (void)folder, (void)flags, (void)wanted, (void)found;
    return do_with(path, look, &opened);
}

int32_t rattle_errno(void) { return last_error; }

void rattle_set_errno(int32_t number) { last_error = number; }

/* Passes the words on as addresses of 64 bits. Returns 0 without memory for them. */
static int keep_words(void) {
    uint32_t count = 0, bytes = 0;
    if (wasi_word_sizes(at(&count), at(&bytes)) != 0) return 0;
    uint32_t *narrow = malloc(4 * (size_t)count + 4);
    char **words = malloc(sizeof *words * ((size_t)count + 1)), *text = malloc((size_t)bytes + 1);
    if (narrow == NULL || words == NULL || text == NULL || wasi_words(at(narrow), at(text)) != 0) return 0;
    for (uint32_t k = 0; k < count; k++) words[k] = (char *)(uintptr_t)narrow[k];
    os_keep_words(count, words);
    free(narrow);
    return 1;
}

void _start(void) { wasi_exit(keep_words() ? rattle_main() : NO_MEMORY); }
