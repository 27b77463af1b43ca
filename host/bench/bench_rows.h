/* The rows of the benchmark: the same work lent to both engines. */
#ifndef BENCH_ROWS_H
#define BENCH_ROWS_H

#include <stddef.h>
#include <stdint.h>

/* The plots that rows are points of. */
enum bench_plots {
    CHECK_PLOT,
    FRESH_PLOT,
    WALK_PLOT,
    LINK_PLOT,
    SMALL_RUN_PLOT,
    FULL_RUN_PLOT,
    PLOTS,
    NO_PLOT = PLOTS
};

struct bench_row {
    const char *name;
    size_t records; /* of an image */
    size_t events;  /* of one call of Run, timed by the event; 0 for a row timed by the call */
    enum bench_plots plot;
    /* Fills what is lent; the calls below then do the same work each time. */
    void (*prepare)(const struct bench_row *row);
    uint32_t (*plex_call)(void);
    uint32_t (*plain_call)(void);
};

extern const struct bench_row bench_rows[];
extern const size_t bench_row_count;

/* What the runs of a row came to: medians, and the least and the greatest of the ratios. Nanoseconds are of an event,
 * or of a call. */
struct bench_result {
    double plex_ns, plain_ns, ratio, least, most;
};

#endif
