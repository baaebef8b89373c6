/* The words of the command line. */
#include "os.h"

static size_t count;
static char **words;

void os_keep_words(size_t given_count, char **given) {
    count = given_count;
    words = given;
}

size_t rattle_arg_count(void) { return count; }

int64_t rattle_arg(size_t i, char *room, size_t size) {
    if (i >= count || words[i] == NULL) return -1;
    size_t length = 0;
    for (; words[i][length] != 0; length++) {
        if (length == size) return -2;
        room[length] = words[i][length];
    }
    return (int64_t)length;
}
