/* Block tables for the benchmark; each function writes every row. */
#ifndef BENCH_TABLE_H
#define BENCH_TABLE_H

#include <stdint.h>

/* Every block CMX, with a lock of its own: two blocks side by side on each thread. */
void bench_job_table(uint8_t *table);

/* As bench_job_table, but the two blocks of a thread have one lock. */
void bench_group_table(uint8_t *table);

/* Every block CMX, with a lock of its own: the first eight blocks on different threads. */
void bench_ring_table(uint8_t *table);

#endif
