#define _GNU_SOURCE
#include <dlfcn.h>
#include <stdio.h>
#include <stdlib.h>
#include <unistd.h>
#include "drawing.h"

struct drawing drawing;

static void *find(void *plugin, const char *path, const char *name, int needed) {
    void *found = dlsym(plugin, name);
    if (!found && needed) {
        fprintf(stderr, "psxgpu_record: %s is no GPU plugin: it has no %s\n", path, name);
        _exit(1);
    }
    return found;
}

void load_drawing(void) {
    const char *path = getenv("PSXGPU_PLUGIN");
    static void *plugin;
    if (plugin) return;
    if (!path || !*path) path = "/usr/lib/x86_64-linux-gnu/psemu/libDFXVideo.so";
    plugin = dlopen(path, RTLD_NOW | RTLD_LOCAL);
    if (!plugin) {
        fprintf(stderr, "psxgpu_record: no plugin that draws: %s\n", dlerror());
        _exit(1);
    }
#define CALL(answer, name, takes) *(void **)&drawing.name = find(plugin, path, "GPU" #name, 1);
    NEEDED_CALLS(CALL)
#undef CALL
#define CALL(answer, name, takes) *(void **)&drawing.name = find(plugin, path, "GPU" #name, 0);
    OTHER_CALLS(CALL)
#undef CALL
    dlerror(); /* what is missing there is no fault of the emulator's next look-up */
}
