/* What the state says of trees, locks and reads, asked by run and walk alike. */
#ifndef PLAIN_STATE_H
#define PLAIN_STATE_H

#include "plain_program.h"

/* Given 9,633 bytes and a checked program. */
bool plain_state_well_formed(const struct program *program, const uint8_t *state);

/* Given a tree with a pending signal. */
static inline uint32_t thread_of_oldest(const struct program *program, const uint8_t *tree)
{
    uint32_t label = get16(tree + PLEX_TREE_SIGNALS + PLEX_SIGNAL_LABEL);
    return thread_of_block(program, block_of(program, label));
}

/* The index of the first tree of the thread's queue, or the tree count. */
static inline uint32_t first_tree(const uint8_t *state, uint32_t thread)
{
    uint32_t count = state[PLEX_STATE_TREE_COUNT];
    uint32_t tree = 0;
    while (tree < count && tree_at(state, tree)[PLEX_TREE_THREAD] != thread)
        tree++;
    return tree;
}

/* The only thread that holds the lock, or NO_THREAD. */
static inline uint32_t holder_of(const uint8_t *state, uint32_t lock)
{
    uint32_t thread = 0;
    while (thread < PLEX_THREADS && !(get16(thread_at(state, thread) + PLEX_THREAD_LOCKS) >> lock & 1))
        thread++;
    return thread;
}

/* The value of an operand in a record of the block; a register read is added to
 * the set of registers read. */
static inline uint32_t operand_value(const uint8_t *state, const uint8_t *thread_bytes, uint32_t block,
                                     const uint8_t *operand, uint32_t *registers_read)
{
    uint32_t value = get16(operand + 1);
    if (operand[0] == PLEX_NUMBER_OPERAND)
        return value;
    if (operand[0] == PLEX_WORD_OPERAND)
        return get16(word_at(state, block, value));
    *registers_read |= 1u << value;
    return get16(thread_bytes + PLEX_THREAD_VALUES + 2 * value);
}

/* So many data values are few. Few are stored one by one: a copy of all the bytes would wait until the stores of two
 * bytes, which it reads, are done. With many that wait is shorter than so many stores. */
enum { FEW_VALUES = 4 };

/* Writes the record's data values to the front of data, and if they are many zeros behind them; returns whether no
 * absent register was read. */
static inline bool read_data(const uint8_t *state, const uint8_t *thread_bytes, const uint8_t *record, uint8_t *data)
{
    const uint8_t *operand = record + PLEX_RECORD_OPERANDS;
    uint32_t count = record[PLEX_RECORD_COUNT], block = record[PLEX_RECORD_BLOCK];
    uint32_t registers_read = 0;
    if (count > FEW_VALUES)
        memset(data, 0, VALUES_SIZE);
    for (uint32_t i = 0; i < count; i++, operand += PLEX_OPERAND_SIZE)
        put16(data + 2 * i, operand_value(state, thread_bytes, block, operand, &registers_read));
    return (registers_read & ~get32(thread_bytes + PLEX_THREAD_PRESENCE)) == 0;
}

/* The tests of direct SEND and CALL after the data and before the lock, given the
 * block of the signal: the trap's reason, or NO_TRAP. */
static inline uint32_t trap_of_direct_or_call(const struct program *program, const uint8_t *thread_bytes,
                                              uint32_t thread, const uint8_t *record, uint32_t block)
{
    if (record[PLEX_RECORD_OPCODE] == PLEX_CALL && thread_bytes[PLEX_THREAD_RETURN_COUNT] == PLEX_RETURNS_MAX)
        return PLEX_RETURNS_FULL;
    return open_to(program, block, thread) ? NO_TRAP : PLEX_FOREIGN_FD_BLOCK;
}

#endif
