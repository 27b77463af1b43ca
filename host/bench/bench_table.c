#include "bench_table.h"
#include "build.h"

void bench_job_table(uint8_t *table)
{
    for (uint32_t block = 0; block < PLEX_BLOCKS; block++)
        put_row(table, block, block / 2, PLEX_CMX, block);
}

void bench_group_table(uint8_t *table)
{
    for (uint32_t block = 0; block < PLEX_BLOCKS; block++)
        put_row(table, block, block / 2, PLEX_CMX, block / 2);
}

void bench_ring_table(uint8_t *table)
{
    for (uint32_t block = 0; block < PLEX_BLOCKS; block++)
        put_row(table, block, block % PLEX_THREADS, PLEX_CMX, block);
}
