/* Where the parts of lent bytes lie, and how a field is read and written. */
#ifndef FIELDS_H
#define FIELDS_H

#include "plex.h"

static inline uint32_t get16(const uint8_t *at)
{
    return at[0] | (uint32_t)at[1] << 8;
}

static inline uint32_t get32(const uint8_t *at)
{
    return get16(at) | get16(at + 2) << 16;
}

static inline void put16(uint8_t *at, uint32_t value)
{
    at[0] = (uint8_t)value;
    at[1] = (uint8_t)(value >> 8);
}

static inline void put32(uint8_t *at, uint32_t value)
{
    put16(at, value);
    put16(at + 2, value >> 16);
}

/* How many members a set of bits has. */
static inline uint32_t count_bits(uint32_t bits)
{
    uint32_t count = 0;
    for (; bits != 0; bits &= bits - 1)
        count++;
    return count;
}

/* A count byte, but no more than there is room for in the bytes that follow it. */
static inline uint32_t at_most(uint8_t count, uint32_t limit)
{
    return count < limit ? count : limit;
}

static inline const uint8_t *record_at(const uint8_t *image, uint32_t label)
{
    return image + PLEX_RECORD_SIZE * label;
}

/* The blocks that records of a checked image are in, bit b for block b. */
static inline uint32_t named_blocks(const uint8_t *image, uint32_t records)
{
    uint32_t named = 0;
    for (uint32_t label = 0; label < records; label++)
        named |= 1u << record_at(image, label)[PLEX_RECORD_BLOCK];
    return named;
}

static inline const uint8_t *operand_at(const uint8_t *record, uint32_t index)
{
    return record + PLEX_RECORD_OPERANDS + PLEX_OPERAND_SIZE * index;
}

static inline const uint8_t *row_at(const uint8_t *table, uint32_t block)
{
    return table + PLEX_ROW_SIZE * block;
}

/* The lock that guards the block. */
static inline uint32_t lock_of(const uint8_t *table, uint32_t block)
{
    return row_at(table, block)[PLEX_ROW_LOCK];
}

static inline const uint8_t *word_at(const uint8_t *state, uint32_t block, uint32_t word)
{
    return state + PLEX_STATE_WORDS + 2 * (PLEX_BLOCK_WORDS * block + word);
}

static inline const uint8_t *thread_at(const uint8_t *state, uint32_t thread)
{
    return state + PLEX_STATE_THREADS + PLEX_THREAD_SIZE * thread;
}

static inline const uint8_t *tree_at(const uint8_t *state, uint32_t tree)
{
    return state + PLEX_STATE_TREES + PLEX_TREE_SIZE * tree;
}

static inline const uint8_t *held_at(const uint8_t *thread, uint32_t index)
{
    return thread + PLEX_THREAD_HELD + PLEX_SIGNAL_SIZE * index;
}

static inline const uint8_t *signal_at(const uint8_t *tree, uint32_t index)
{
    return tree + PLEX_TREE_SIGNALS + PLEX_SIGNAL_SIZE * index;
}

#endif
