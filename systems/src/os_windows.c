/* os.h for Windows: binary streams, and words and file names as UTF-8. */
#include <errno.h>
#include <fcntl.h>
#include <io.h>
#include <limits.h>
#include <stdlib.h>
#include <string.h>
#include <windows.h>
#include "os.h"

int _dowildcard = 0; /* of MinGW's start: a word with a star stays that word, as Windows passes it */

enum { NO_MEMORY = 5, IS_FOLDER = 21, BROKEN_PIPE = 32, NAME_TOO_LONG = 36, MOST_NAME = 32767 };
enum { FOLDER = 1 << 30 }; /* the number of a folder that was opened: Linux opens it too, and fails to read */

static int32_t last_error;

/* msvcrt has Linux's numbers up to 34. It calls a write to a pipe that nobody reads an invalid argument. */
static int32_t number_of(int error) {
    if (error == EINVAL && GetLastError() == ERROR_NO_DATA) return BROKEN_PIPE;
    return error == ENAMETOOLONG ? NAME_TOO_LONG : error;
}

/* Returns what a call returned, and keeps the cause of a failure. */
static int64_t kept(int result) {
    if (result < 0) last_error = number_of(errno);
    return result;
}

static unsigned most(size_t size) { return size > INT_MAX ? INT_MAX : (unsigned)size; }

/* UTF-8 as UTF-16, in memory that the caller frees. NULL without memory, or where it is longer than a name may be. */
static wchar_t *wide_of(const char *text) {
    int size = MultiByteToWideChar(CP_UTF8, 0, text, -1, NULL, 0);
    wchar_t *wide = size <= 0 || size > MOST_NAME ? NULL : malloc(sizeof *wide * (size_t)size);
    if (wide != NULL) MultiByteToWideChar(CP_UTF8, 0, text, -1, wide, size);
    return wide;
}

/* A path as UTF-16, in memory that the caller frees; NULL as above. Windows takes 260 characters or more only of a whole
 * path that begins with `\\?\`. A path on a server, which begins with `\\`, stays as it is. */
static wchar_t *name_of(const char *path) {
    static const wchar_t prefix[] = L"\\\\?\\";
    enum { PREFIX = sizeof prefix / sizeof *prefix - 1 };
    wchar_t *wide = wide_of(path);
    DWORD size = wide == NULL ? 0 : GetFullPathNameW(wide, 0, NULL, NULL);
    if (size < MAX_PATH) return wide;
    wchar_t *whole = malloc(sizeof *whole * (PREFIX + size));
    if (whole == NULL) return wide;
    memcpy(whole, prefix, sizeof prefix);
    if (GetFullPathNameW(wide, size, whole + PREFIX, NULL) < size && whole[PREFIX] != L'\\') {
        free(wide);
        return whole;
    }
    free(whole);
    return wide;
}

static int is_console(HANDLE file) {
    DWORD mode;
    return GetConsoleMode(file, &mode) != 0;
}

/* Writes UTF-8 to a console, whose own encoding is another one. Returns 0 where it is not UTF-8, or is not written. */
static int write_text(HANDLE console, const char *bytes, int size) {
    int count = MultiByteToWideChar(CP_UTF8, MB_ERR_INVALID_CHARS, bytes, size, NULL, 0);
    wchar_t *wide = count <= 0 ? NULL : malloc(sizeof *wide * (size_t)count);
    DWORD written = 0;
    if (wide == NULL) return 0;
    MultiByteToWideChar(CP_UTF8, 0, bytes, size, wide, count);
    int whole = WriteConsoleW(console, wide, (DWORD)count, &written, NULL) && written == (DWORD)count;
    free(wide);
    return whole;
}

int64_t os_write(int32_t file, const void *bytes, size_t size) {
    HANDLE handle = (HANDLE)_get_osfhandle(file);
    if (is_console(handle) && write_text(handle, bytes, (int)most(size))) return (int64_t)most(size);
    return kept(_write(file, bytes, most(size)));
}

int64_t os_read(int32_t file, void *bytes, size_t size) {
    if (file != FOLDER) return kept(_read(file, bytes, most(size)));
    last_error = IS_FOLDER;
    return -1;
}

static int is_folder(const wchar_t *name) {
    DWORD attributes = GetFileAttributesW(name);
    return attributes != INVALID_FILE_ATTRIBUTES && (attributes & FILE_ATTRIBUTE_DIRECTORY) != 0;
}

int32_t os_open(const char *path, int32_t flags, ...) {
    (void)flags;
    wchar_t *wide = name_of(path);
    if (wide == NULL) {
        last_error = NAME_TOO_LONG;
        return -1;
    }
    int32_t file = is_folder(wide) ? FOLDER : (int32_t)kept(_wopen(wide, _O_RDONLY | _O_BINARY | _O_NOINHERIT));
    free(wide);
    return file;
}

int32_t os_close(int32_t file) { return file == FOLDER ? 0 : (int32_t)kept(_close(file)); }

/* msvcrt's isatty is true for every character device, also for NUL. */
int32_t os_isatty(int32_t file) { return is_console((HANDLE)_get_osfhandle(file)); }

int32_t os_exists(int32_t folder, const char *path, int32_t flags, int32_t wanted, void *found) {
    (void)folder, (void)flags, (void)wanted, (void)found;
    wchar_t *wide = name_of(path);
    int32_t result = wide != NULL && GetFileAttributesW(wide) != INVALID_FILE_ATTRIBUTES ? 0 : -1;
    free(wide);
    if (result != 0) last_error = ENOENT;
    return result;
}

int32_t rattle_errno(void) { return last_error; }

void rattle_set_errno(int32_t number) { last_error = number; }

/* UTF-16 as UTF-8, or NULL without memory. */
static char *narrow_of(const wchar_t *word) {
    int size = WideCharToMultiByte(CP_UTF8, 0, word, -1, NULL, 0, NULL, NULL);
    char *narrow = malloc((size_t)size + 1);
    if (narrow != NULL) WideCharToMultiByte(CP_UTF8, 0, word, -1, narrow, size, NULL, NULL);
    return narrow;
}

int wmain(int argc, wchar_t **argv) {
    int lacking = os_processor();
    if (lacking) return lacking;
    for (int file = 0; file < 3; file++) _setmode(file, _O_BINARY);
    char **words = malloc(sizeof *words * ((size_t)argc + 1));
    if (words == NULL) return NO_MEMORY;
    for (int k = 0; k < argc; k++)
        if ((words[k] = narrow_of(argv[k])) == NULL) return NO_MEMORY;
    os_keep_words((size_t)argc, words);
    return rattle_main();
}
