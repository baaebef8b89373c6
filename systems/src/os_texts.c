/* The texts of errors, as Linux has them, so that a line about a file is the same on every system. */
#include "os.h"

static const struct { int32_t number; const char *text; } texts[] = {
    { 1, "Operation not permitted" }, { 2, "No such file or directory" }, { 4, "Interrupted system call" },
    { 5, "Input/output error" }, { 6, "No such device or address" }, { 9, "Bad file descriptor" },
    { 11, "Resource temporarily unavailable" }, { 12, "Cannot allocate memory" }, { 13, "Permission denied" },
    { 16, "Device or resource busy" }, { 17, "File exists" }, { 19, "No such device" }, { 20, "Not a directory" },
    { 21, "Is a directory" }, { 22, "Invalid argument" }, { 23, "Too many open files in system" },
    { 24, "Too many open files" }, { 26, "Text file busy" }, { 27, "File too large" },
    { 28, "No space left on device" }, { 30, "Read-only file system" }, { 32, "Broken pipe" },
    { 36, "File name too long" },
    { 40, "Too many levels of symbolic links" }, { 75, "Value too large for defined data type" },
};

static const char *text_of(int32_t number) {
    for (size_t k = 0; k < sizeof texts / sizeof *texts; k++)
        if (texts[k].number == number) return texts[k].text;
    return "Unknown error";
}

int32_t os_strerror(int32_t number, char *text, size_t room) {
    const char *from = text_of(number);
    size_t k = 0;
    for (; k + 1 < room && from[k] != 0; k++) text[k] = from[k];
    if (room != 0) text[k] = 0;
    return 0;
}
