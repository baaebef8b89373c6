/* macho_run PROGRAM WORD ..: runs a program for macOS, of this processor and small, on Linux.
 *
 * For checks alone. It maps the segments, rebases and binds as LC_DYLD_INFO_ONLY says, binds each function to the one of
 * this C library, and calls the entry. So the program's code, its relocations and its bindings are tried. dyld, the
 * signature and macOS's C library are not. Status 125: the program is not one that this loader knows. */
#define _GNU_SOURCE
#include <dlfcn.h>
#include <errno.h>
#include <fcntl.h>
#include <stdarg.h>
#include <stdint.h>
#include <stdio.h>
#include <stdlib.h>
#include <string.h>
#include <strings.h>
#include <sys/mman.h>
#include <sys/stat.h>

/* <mach-o/loader.h> */
struct head { uint32_t magic, cpu, subtype, type, count, size, flags, reserved; };
struct command { uint32_t cmd, size; };
struct segment {
    uint32_t cmd, size;
    char name[16];
    uint64_t address, length, offset, bytes;
    uint32_t most_rights, first_rights, sections, flags;
};
struct fixes {
    uint32_t cmd, size, rebase, rebase_size, bind, bind_size, weak, weak_size, lazy, lazy_size, exports, exports_size;
};
struct entry { uint32_t cmd, size; uint64_t offset, stack; };
static const uint32_t MAGIC = 0xfeedfacf, SEGMENT = 0x19, FIXES = 0x80000022, ENTRY = 0x80000028;
enum { CODE = 4, UNKNOWN = 125, MOST = 16 };

static struct segment segments[MOST];
static int segment_count;
static const struct fixes *fixes;
static const struct entry *entry;
static uint8_t *base;                                /* where the lowest address is mapped */
static uint64_t lowest = UINT64_MAX, highest;

static void stop(const char *why, const char *what) {
    fprintf(stderr, "macho_run: %s %s\n", why, what);
    exit(UNKNOWN);
}

/* What the program gets in the place of macOS's functions of other names or numbers. */
static int mac_open(const char *path, int flags) {
    return open(path, (flags & 3) | (flags & 0x1000000 ? O_CLOEXEC : 0));
}

static void pattern16(void *to, const void *pattern, size_t size) {
    for (size_t k = 0; k < size; k++) ((char *)to)[k] = ((const char *)pattern)[k % 16];
}

static void unwanted(void) { abort(); }

static uint64_t address_of(const char *name) {
    static const struct { const char *name; void (*function)(void); } own[] = {
        { "___error", (void (*)(void))__errno_location }, { "_open", (void (*)(void))mac_open },
        { "_memset_pattern16", (void (*)(void))pattern16 }, { "___bzero", (void (*)(void))bzero },
        { "dyld_stub_binder", unwanted }
    };
    for (size_t k = 0; k < sizeof own / sizeof *own; k++)
        if (strcmp(own[k].name, name) == 0) return (uint64_t)(uintptr_t)own[k].function;
    void *found = dlsym(RTLD_DEFAULT, name + 1);
    if (found == NULL) stop("the C library has no", name);
    return (uint64_t)(uintptr_t)found;
}

static uint64_t number(const uint8_t **at) {
    uint64_t value = 0;
    for (int shift = 0;; shift += 7) {
        uint8_t byte = *(*at)++;
        value |= (uint64_t)(byte & 127) << shift;
        if (byte < 128) return value;
    }
}

static uint64_t *place(int segment, uint64_t offset) {
    return (uint64_t *)(void *)(base + (segments[segment].address - lowest) + offset);
}

/* REBASE_OPCODE_..: adds the distance to addresses of the program itself. */
static void rebase(const uint8_t *at, const uint8_t *end) {
    int segment = 0;
    uint64_t offset = 0;
    while (at < end) {
        uint8_t code = *at++, low = code & 15;
        uint64_t times = 0, skip = 0;
        switch (code >> 4) {
        case 0: return;
        case 1: continue;
        case 2: segment = low; offset = number(&at); continue;
        case 3: offset += number(&at); continue;
        case 4: offset += 8u * low; continue;
        case 5: times = low; break;
        case 6: times = number(&at); break;
        case 7: times = 1; skip = number(&at); break;
        case 8: times = number(&at); skip = number(&at); break;
        default: stop("another way to rebase", "");
        }
        for (; times > 0; times--, offset += 8 + skip) *place(segment, offset) += (uint64_t)(uintptr_t)base - lowest;
    }
}

/* BIND_OPCODE_..: stores the addresses of functions. In a lazy list, code 0 ends an entry and not the list. */
static void bind(const uint8_t *at, const uint8_t *end, int is_lazy) {
    int segment = 0;
    uint64_t offset = 0, more = 0;
    const char *name = "";
    while (at < end) {
        uint8_t code = *at++, low = code & 15;
        uint64_t times = 1, skip = 0;
        switch (code >> 4) {
        case 0: if (!is_lazy) return; continue;
        case 1: case 3: case 5: continue;
        case 2: number(&at); continue;
        case 4: name = (const char *)at; at += strlen(name) + 1; continue;
        case 6: more = number(&at); continue;
        case 7: segment = low; offset = number(&at); continue;
        case 8: offset += number(&at); continue;
        case 9: break;
        case 10: skip = number(&at); break;
        case 11: skip = 8u * low; break;
        case 12: times = number(&at); skip = number(&at); break;
        default: stop("another way to bind", name);
        }
        for (; times > 0; times--, offset += 8 + skip) *place(segment, offset) = address_of(name) + more;
    }
}

static const uint8_t *opened(const char *path) {
    struct stat stat;
    int file = open(path, O_RDONLY);
    if (file < 0 || fstat(file, &stat) != 0) stop("no program", path);
    return mmap(NULL, (size_t)stat.st_size, PROT_READ, MAP_PRIVATE, file, 0);
}

static void read_commands(const uint8_t *bytes) {
    const struct head *head = (const void *)bytes;
    const uint8_t *at = bytes + sizeof *head;
    if (head->magic != MAGIC) stop("not a program for one processor", "");
    for (uint32_t k = 0; k < head->count; k++, at += ((const struct command *)(const void *)at)->size) {
        uint32_t cmd = ((const struct command *)(const void *)at)->cmd;
        if (cmd == FIXES) fixes = (const void *)at;
        if (cmd == ENTRY) entry = (const void *)at;
        if (cmd != SEGMENT || segment_count == MOST) continue;
        struct segment it = *(const struct segment *)(const void *)at;
        segments[segment_count++] = it;
        if (it.most_rights == 0) continue;
        if (it.address < lowest) lowest = it.address;
        if (it.address + it.length > highest) highest = it.address + it.length;
    }
    if (entry == NULL || fixes == NULL) stop("no entry or no fixes", "");
}

static void map(const uint8_t *bytes) {
    base = mmap(NULL, highest - lowest, PROT_READ | PROT_WRITE, MAP_PRIVATE | MAP_ANONYMOUS, -1, 0);
    for (int k = 0; k < segment_count; k++)
        if (segments[k].most_rights != 0)
            memcpy(place(k, 0), bytes + segments[k].offset, segments[k].bytes);
    rebase(bytes + fixes->rebase, bytes + fixes->rebase + fixes->rebase_size);
    bind(bytes + fixes->bind, bytes + fixes->bind + fixes->bind_size, 0);
    bind(bytes + fixes->lazy, bytes + fixes->lazy + fixes->lazy_size, 1);
    for (int k = 0; k < segment_count; k++)
        if (segments[k].most_rights & CODE) mprotect(place(k, 0), segments[k].length, PROT_READ | PROT_EXEC);
    __builtin___clear_cache((char *)base, (char *)base + (highest - lowest));
}

int main(int argc, char **argv) {
    if (argc < 2) stop("usage:", "macho_run PROGRAM WORD ..");
    const uint8_t *bytes = opened(argv[1]);
    read_commands(bytes);
    map(bytes);
    int (*start)(int, char **) = (int (*)(int, char **))(uintptr_t)(base + entry->offset);
    return start(argc - 1, argv + 1);
}
