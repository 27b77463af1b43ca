/* A plot of time against the number of records or events, as SVG. */
#ifndef BENCH_PLOT_H
#define BENCH_PLOT_H

#include <stddef.h>

/* Time a call against the records of the image, or of each of two images, or time an event against
 * the events of a call. */
enum bench_axis { RECORDS_AXIS, PAIR_AXIS, EVENTS_AXIS };

struct bench_point {
    size_t number; /* of records or events */
    double plex_ns, plain_ns;
};

/* Writes the file and returns 0, or -1 if it could not be written. Points are in order of their
 * number, at least two, and both axes are logarithmic. */
int bench_plot(const char *path, const char *title, enum bench_axis axis, const struct bench_point *points,
               size_t count);

#endif
