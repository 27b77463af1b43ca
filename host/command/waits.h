/* The waits of a state: what the walks of the library say of each thread. */
#ifndef WAITS_H
#define WAITS_H

#include "fields.h"

#include <stdbool.h>
#include <stdio.h>

/* What the library says of one thread. */
struct walk {
    uint8_t met[PLEX_MET_SIZE];
    uint32_t result;
    uint32_t lock; /* that it waits for, if it waits */
};

bool does_wait(const struct walk *walk);

/* Whether the walk comes back to the thread that it began with. */
bool is_on_ring(const struct walk *walks, uint32_t thread);

/* Whether the thread is the lowest one on a ring. */
bool is_first_on_ring(const struct walk *walks, uint32_t thread);

/* Whether the thread waits or is waited for. */
bool is_in_waits(const struct walk *walks, uint32_t thread);

/* What a box says of its thread: its number, where it is, how many locks it holds, and for which it
 * waits. */
enum { BOX_LINES = 4, BOX_LINE_SIZE = 24 };
void write_box(char lines[BOX_LINES][BOX_LINE_SIZE], const uint8_t *state, const struct walk *walks, uint32_t thread);

/* The waits as a picture in the format SVG, which fits a page. */
void draw_picture(FILE *stream, const uint8_t *state, const struct walk *walks);

#endif
