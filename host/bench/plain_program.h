/* What the plain engine's files share: a checked program, and questions about it. */
#ifndef PLAIN_PROGRAM_H
#define PLAIN_PROGRAM_H

#include "fields.h"

#include <stdbool.h>
#include <string.h>

enum { VALUES_SIZE = 2 * PLEX_REGISTERS, NO_THREAD = PLEX_THREADS, NO_TRAP = 0 };

/* An image and a block table that passed the check. */
struct program {
    const uint8_t *image;
    const uint8_t *table;
    uint32_t records;
};

static inline uint32_t refuse(uint32_t number, uint32_t place)
{
    return 65536u * number + place;
}

/* Eight bytes at once; only ever compared with zero, so in any byte order. */
static inline uint64_t eight_bytes(const uint8_t *at)
{
    uint64_t bytes;
    memcpy(&bytes, at, sizeof bytes);
    return bytes;
}

/* Given 8 bytes or more, and a length that is known when it is compiled; the last eight may overlap those before. */
static inline bool words_zero(const uint8_t *at, size_t len)
{
    uint64_t seen = eight_bytes(at + len - 8);
    for (size_t i = 0; i + 8 <= len; i += 8)
        seen |= eight_bytes(at + i);
    return seen == 0;
}

/* As many zero bytes as any part of a state that must be zero. */
extern const uint8_t plain_zeros[PLEX_TREES_MAX * PLEX_TREE_SIZE];

static inline bool all_zero(const uint8_t *at, size_t len)
{
    return memcmp(at, plain_zeros, len) == 0;
}

static inline uint32_t block_of(const struct program *program, uint32_t label)
{
    return record_at(program->image, label)[PLEX_RECORD_BLOCK];
}

static inline uint32_t thread_of_block(const struct program *program, uint32_t block)
{
    return row_at(program->table, block)[PLEX_ROW_THREAD];
}

/* Whether jobs of the thread may be in the block. */
static inline bool open_to(const struct program *program, uint32_t block, uint32_t thread)
{
    return row_at(program->table, block)[PLEX_ROW_KIND] == PLEX_CMX || thread_of_block(program, block) == thread;
}

/* The presence set with registers 0..count-1 and no other. */
static inline uint32_t first_registers(uint32_t count)
{
    return (1u << count) - 1;
}

#endif
