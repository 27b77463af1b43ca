/* A thread in hand during a run, and what is done to its job. */
#ifndef PLAIN_JOB_H
#define PLAIN_JOB_H

#include "plain_state.h"

struct job {
    const struct program *program;
    uint8_t *state;
    uint8_t *bytes; /* the thread's record within the state */
    uint32_t thread;
};

/* The two answer bytes of an event, code first, as one number. */
static inline uint32_t answer(uint32_t code, uint32_t detail)
{
    return (uint32_t)code | detail << 8;
}

/* Given what read_data wrote: the values, and zeros behind them. */
static inline void put_values(uint8_t *values, const uint8_t *data, uint32_t count)
{
    if (count > FEW_VALUES) {
        memcpy(values, data, VALUES_SIZE);
        return;
    }
    memset(values, 0, VALUES_SIZE);
    for (uint32_t i = 0; i < count; i++)
        put16(values + 2 * i, get16(data + 2 * i));
}

/* Given what read_data wrote: registers 0..count-1 hold the values, the others are absent. */
static inline void set_registers(const struct job *job, const uint8_t *data, uint32_t count)
{
    put32(job->bytes + PLEX_THREAD_PRESENCE, first_registers(count));
    put_values(job->bytes + PLEX_THREAD_VALUES, data, count);
}

/* Makes the signal the only one of a new tree at the list's end, on its block's thread; returns whether
 * there was room. */
static inline bool add_tree(const struct program *program, uint8_t *state, const uint8_t *signal)
{
    uint32_t count = state[PLEX_STATE_TREE_COUNT];
    if (count == PLEX_TREES_MAX)
        return false;
    uint8_t *tree = state + PLEX_STATE_TREES + PLEX_TREE_SIZE * count;
    memcpy(tree + PLEX_TREE_SIGNALS, signal, PLEX_SIGNAL_SIZE);
    tree[PLEX_TREE_PENDING] = 1;
    tree[PLEX_TREE_THREAD] = (uint8_t)thread_of_oldest(program, tree);
    state[PLEX_STATE_TREE_COUNT] = (uint8_t)(count + 1);
    return true;
}

/* One step of a running thread. */
uint32_t plain_step(const struct job *job);

/* Ends the job, drops the signals that it holds, and hands the answer back. */
uint32_t plain_end_job(const struct job *job, uint32_t result);

/* EXIT: once the job's own tree is settled, each held signal founds a tree, or is lost for want of room. */
uint32_t plain_leave(const struct job *job);

#endif
