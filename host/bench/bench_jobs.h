/* Images and event lists of jobs for Run and the walk, the same in every run. */
#ifndef BENCH_JOBS_H
#define BENCH_JOBS_H

#include "build.h"

/* A multiple of 16 records, up to 512: routines of 16 records in two blocks each. */
void bench_job_image(uint8_t *image, size_t records);

/* As many: jobs that hold two signals at their EXIT, and the jobs of the trees that these found. */
void bench_founder_image(uint8_t *image, size_t records);

/* For an image of either, with bench_job_table. In every 16 events a job arrives, does each opcode of
 * its routine and ends, as do the jobs of the signals that it sends; from a fresh machine they leave no
 * thread running and no tree, and the same words each time. A single event is a step without work. */
void bench_job_events(uint8_t *events, size_t count, size_t records);

/* 2 records or more: a job that does nothing but direct SENDs of so many values, without end, in so many
 * blocks by turns. */
void bench_send_image(uint8_t *image, size_t records, uint8_t blocks, uint8_t values);

/* A job that does nothing but one statement, without end. From label to label its last source is another register: so
 * many by turns, from the one that it names on. */
struct bench_loop {
    struct statement statement;
    uint8_t last_sources;
};

/* 1 record or more, of such a job, which has 25 values. */
void bench_loop_image(uint8_t *image, size_t records, const struct bench_loop *loop);

/* These do not trap. The sum and the divisions have one last source; the first division's remainder goes to a word, the
 * other's to a register. The decimal sum is added to again and again. */
extern const struct bench_loop bench_addition, bench_division, bench_register_division;
extern const struct bench_loop bench_packing, bench_unpacking, bench_decimal_sum;

/* For an image of either, whose job has so many values: 2 events that start the job on thread 0, and so many
 * that each do one statement. */
enum { LOOP_START_EVENTS = 2 };
void bench_loop_start(uint8_t *events, uint8_t values);
void bench_loop_events(uint8_t *events, size_t count);

/* 2 records or more: jobs that do nothing but buffered SENDs of 25 values, until their tree is full and the next one
 * is a trap. From a fresh machine the first events fill 16 trees, each of them by a start, 8 SENDs and a trap. From
 * then on each 3 steps of thread 0, as bench_loop_events makes them, are a start, a SEND and a trap, which moves a full
 * tree from the list's begin to its end. */
void bench_full_image(uint8_t *image, size_t records);
enum { FULL_START_EVENTS = PLEX_TREES_MAX * (1 + 1 + PLEX_PENDING_MAX + 1), FULL_EVENTS_A_TRAP = 3 };
void bench_full_start(uint8_t *events);

/* A multiple of 16 records, up to 512: each of 8 blocks sends to the next one's second record. */
void bench_ring_image(uint8_t *image, size_t records);

/* For an image of bench_ring_image, with bench_ring_table: 24 events that start a job on each thread and
 * have it wait for the next. */
enum { RING_EVENTS = 24 };
void bench_ring_events(uint8_t *events);

#endif
