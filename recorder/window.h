/* The window in which the plugin that draws shows its picture; X11, if it was built with it. */
#ifndef WINDOW_H
#define WINDOW_H
#include <stdint.h>

/* Connects to the X server, and opens a window if `visible`. Returns the Display, from which emulators read their keys,
   or NULL if there is none. */
void *window_open(const char *caption, int visible);
void window_close(void);

/* Whether there is a window. */
int window_is_open(void);

/* Shows a picture: `height` rows of `width` pixels of four bytes, red first. */
void window_show(const uint8_t *rgba, unsigned width, unsigned height);

#endif
