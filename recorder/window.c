#define _GNU_SOURCE
#include "window.h"
#include <stddef.h>

#ifdef WITH_X11
#include <X11/Xlib.h>
#include <X11/Xutil.h>
#include <string.h>

enum { WIDTH = 640, HEIGHT = 480 };

static Display *display;
static Window window;
static XImage *image;
static uint32_t pixels[WIDTH * HEIGHT];

static void open_window(const char *caption) {
    const int screen = DefaultScreen(display);
    Atom closes = XInternAtom(display, "WM_DELETE_WINDOW", False);
    if (DefaultDepth(display, screen) < 24) return;
    window = XCreateSimpleWindow(display, RootWindow(display, screen), 0, 0, WIDTH, HEIGHT, 0, 0, 0);
    XSelectInput(display, window, KeyPressMask | KeyReleaseMask | FocusChangeMask);
    XSetWMProtocols(display, window, &closes, 1);
    XStoreName(display, window, caption);
    XMapRaised(display, window);
    image = XCreateImage(display, DefaultVisual(display, screen), (unsigned)DefaultDepth(display, screen), ZPixmap, 0,
                         (char *)pixels, WIDTH, HEIGHT, 32, 0);
    XFlush(display);
}

void *window_open(const char *caption, int visible) {
    if (!display) display = XOpenDisplay(NULL);
    if (display && visible && !window) open_window(caption ? caption : "psxgpu");
    return display;
}

void window_close(void) {
    if (image) {
        image->data = NULL; /* pixels are not the image's own */
        XDestroyImage(image);
    }
    if (display) XCloseDisplay(display);
    display = NULL;
    image = NULL;
    window = 0;
}

int window_is_open(void) { return image != NULL; }

void window_show(const uint8_t *rgba, unsigned width, unsigned height) {
    unsigned x, y;
    for (y = 0; y < HEIGHT; y++) {
        const uint8_t *row = rgba + 4 * (size_t)width * (y * height / HEIGHT);
        for (x = 0; x < WIDTH; x++) {
            const uint8_t *pixel = row + 4 * (x * width / WIDTH);
            pixels[y * WIDTH + x] = (uint32_t)pixel[0] << 16 | (uint32_t)pixel[1] << 8 | pixel[2];
        }
    }
    XPutImage(display, window, DefaultGC(display, DefaultScreen(display)), image, 0, 0, 0, 0, WIDTH, HEIGHT);
    XFlush(display);
}

#else
#include <dlfcn.h>

/* The emulator has loaded libX11 itself. */
void *window_open(const char *caption, int visible) {
    void *(*open_display)(const char *);
    (void)caption, (void)visible;
    *(void **)&open_display = dlsym(RTLD_DEFAULT, "XOpenDisplay");
    return open_display ? open_display(NULL) : NULL;
}

void window_close(void) {}
int window_is_open(void) { return 0; }
void window_show(const uint8_t *rgba, unsigned width, unsigned height) { (void)rgba, (void)width, (void)height; }
#endif
