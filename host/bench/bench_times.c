/* Times the proved engine against the plain one: the same work, in one run, taken turn about. Of each row it writes the
 * best times of many rounds, and the median of the rounds' own ratios, so that a machine that slows down for a while
 * slows down both of its numbers. Run is timed by the event, the other calls by the call. The buffers are in the
 * processor's caches, and nothing is cleared between calls. The program is linked several times, and each has a few
 * bytes more before the engines (bench_place.c). */
#define _POSIX_C_SOURCE 199309L

#include "bench_calls.h"
#include "bench_rows.h"

#include <inttypes.h>
#include <stdio.h>
#include <stdlib.h>
#include <time.h>

/* A row has so many rounds, or as many as its time allows. */
enum { ROUNDS = 5000, FEWEST_ROUNDS = 50, ROUND_NS = 20000, ROW_NS = 200000000 };

static double now_ns(void)
{
    struct timespec now;
    clock_gettime(CLOCK_MONOTONIC, &now);
    return (double)now.tv_sec * 1e9 + (double)now.tv_nsec;
}

/* Nanoseconds a call, over so many calls; each must return what is expected. */
static double time_calls(uint32_t (*call)(void), size_t calls, uint32_t expected)
{
    uint32_t differing = 0;
    double start = now_ns();
    for (size_t i = 0; i < calls; i++)
        differing |= call() ^ expected;
    double taken = now_ns() - start;
    if (differing != 0) {
        fprintf(stderr, "bench: a call did not return %" PRIu32 "\n", expected);
        exit(1);
    }
    return taken / (double)calls;
}

/* So many plain calls as fill a round; of images in turn, each the same number of times. */
static size_t calls_a_round(const struct bench_row *row, uint32_t expected)
{
    size_t turn = work.images_count == 0 ? 1 : work.images_count;
    double ns = time_calls(row->plain_call, 20 * turn, expected);
    return turn * (1 + (size_t)(ROUND_NS / ns / (double)turn));
}

/* What both engines return; they must leave the same bytes too, and no job may end short of its work. */
static uint32_t expected_return(const struct bench_row *row)
{
    row->prepare(row);
    uint32_t expected = row->plain_call();
    if (expected >= 65536 || row->plex_call() != expected || !bench_same_bytes() || !bench_expected_traps()) {
        fprintf(stderr, "bench: %s: the engines differ, or refuse, or a job traps that should not\n", row->name);
        exit(1);
    }
    return expected;
}

static int by_size(const void *a, const void *b)
{
    double x = *(const double *)a, y = *(const double *)b;
    return (x > y) - (x < y);
}

static void time_row(const struct bench_row *row)
{
    static double ratios[ROUNDS];
    uint32_t expected = expected_return(row);
    size_t calls = calls_a_round(row, expected), rounds = 0;
    double plex_best = 1e300, plain_best = 1e300, begun = now_ns();
    while (rounds < ROUNDS && (rounds < FEWEST_ROUNDS || now_ns() - begun < ROW_NS)) {
        double plex_ns = time_calls(row->plex_call, calls, expected);
        double plain_ns = time_calls(row->plain_call, calls, expected);
        plex_best = plex_ns < plex_best ? plex_ns : plex_best;
        plain_best = plain_ns < plain_best ? plain_ns : plain_best;
        ratios[rounds++] = plex_ns / plain_ns;
    }
    qsort(ratios, rounds, sizeof ratios[0], by_size);
    double units = row->events == 0 ? 1 : (double)row->events;
    printf("%.4f %.4f %.4f\n", plex_best / units, plain_best / units, ratios[rounds / 2]);
}

int main(void)
{
    for (size_t i = 0; i < bench_row_count; i++)
        time_row(&bench_rows[i]);
    return 0;
}
