/* noxv: Xvfb has no Xv, which pcsxr's soft GPU plugin asks for. Preloaded, this says that there is one port with 32
   bits a pixel, and shows nothing. The layouts are those of Xvlib.h. */
#include <stdlib.h>

struct adaptor {
    unsigned long base_id, num_ports;
    char type, *name;
    unsigned long num_formats;
    void *formats;
    unsigned long num_adaptors;
};

struct format {
    int id, type, byte_order;
    char guid[16];
    int bits_per_pixel, format, num_planes, depth;
    unsigned masks[3], rest[9];
    char order[32];
    int scanline_order;
};

struct image {
    int id, width, height, data_size, num_planes, *pitches, *offsets;
    char *data, *obdata;
};

int XvQueryAdaptors(void *display, unsigned long window, unsigned *n, struct adaptor **all) {
    (void)display, (void)window;
    *n = 1;
    *all = calloc(1, sizeof **all);
    if (!*all) return 11; /* XvBadAlloc */
    (*all)->base_id = 1;
    (*all)->num_ports = 1;
    return 0;
}

void XvFreeAdaptorInfo(struct adaptor *all) { free(all); }

struct format *XvListImageFormats(void *display, unsigned long port, int *n) {
    struct format *one = calloc(1, sizeof *one);
    (void)display, (void)port;
    *n = one != NULL;
    if (!one) return NULL;
    one->id = 1;
    one->bits_per_pixel = 32;
    one->depth = 24;
    return one;
}

struct image *XvCreateImage(void *display, unsigned long port, int id, char *data, int width, int height) {
    struct image *image = calloc(1, sizeof *image);
    (void)display, (void)port;
    if (!image) return NULL;
    image->id = id;
    image->width = width;
    image->height = height;
    image->data = data;
    image->data_size = 4 * width * height;
    return image;
}

struct image *XvShmCreateImage(void *display, unsigned long port, int id, char *data, int w, int h, void *shm) {
    (void)shm;
    return XvCreateImage(display, port, id, data, w, h);
}

void *XvQueryPortAttributes(void *display, unsigned long port, int *n) {
    (void)display, (void)port;
    *n = 0;
    return NULL;
}

int XvGetPortAttribute(void *display, unsigned long port, unsigned long attribute, int *value) {
    (void)display, (void)port, (void)attribute;
    *value = 0;
    return 0;
}

int XvSetPortAttribute(void *display, unsigned long port, unsigned long attribute, int value) {
    (void)display, (void)port, (void)attribute, (void)value;
    return 0;
}

int XvPutImage(void) { return 0; }
int XvShmPutImage(void) { return 0; }
