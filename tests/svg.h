/* What a test reads of a picture in the format SVG that has one element a line. */
#ifndef SVG_H
#define SVG_H

#include <stdbool.h>
#include <stddef.h>

/* The part of the page that a text or a box takes; or a line, from left and top to right and bottom,
 * which need not be in that order. */
struct area {
    double left, top, right, bottom;
};

enum { SVG_MOST = 64, SVG_WORD = 64 };

struct svg {
    double width, height, font_size;
    size_t texts, boxes, circles, segments;
    struct area text[SVG_MOST], box[SVG_MOST], circle[SVG_MOST], segment[SVG_MOST];
    /* the text's words; the colours of texts, circles and segments */
    char words[SVG_MOST][SVG_WORD];
    char text_colour[SVG_MOST][SVG_WORD], circle_colour[SVG_MOST][SVG_WORD], segment_colour[SVG_MOST][SVG_WORD];
};

/* Whether all was understood and there was room for it. */
bool read_svg(struct svg *svg, const char *source);

bool do_overlap(const struct area *one, const struct area *other);

bool is_within(const struct area *inner, const struct area *outer);

/* Whether the line goes through the area. */
bool does_cross(const struct area *line, const struct area *area);

#endif
