/* The end of a job. */
#include "plain_job.h"

/* The bytes of a tree up to its newest signal; those after are zero. */
static size_t used_bytes(const uint8_t *tree)
{
    return PLEX_TREE_SIGNALS + PLEX_SIGNAL_SIZE * (size_t)tree[PLEX_TREE_PENDING];
}

/* The job's tree, if empty, leaves the list; otherwise it goes to the list's end,
 * on the thread of its oldest signal's block. */
static void retire_tree(const struct job *job)
{
    uint32_t index = first_tree(job->state, job->thread);
    uint32_t count = job->state[PLEX_STATE_TREE_COUNT];
    uint8_t *tree = job->state + PLEX_STATE_TREES + PLEX_TREE_SIZE * index;
    uint8_t *last = job->state + PLEX_STATE_TREES + PLEX_TREE_SIZE * (count - 1);
    uint8_t retired[PLEX_TREE_SIZE];
    size_t retired_bytes = used_bytes(tree);
    memcpy(retired, tree, retired_bytes);
    memmove(tree, tree + PLEX_TREE_SIZE, (size_t)(last - tree));
    memset(last, 0, used_bytes(last));
    if (retired[PLEX_TREE_PENDING] == 0) {
        job->state[PLEX_STATE_TREE_COUNT] = (uint8_t)(count - 1);
        return;
    }
    memcpy(last, retired, retired_bytes);
    last[PLEX_TREE_THREAD] = (uint8_t)thread_of_oldest(job->program, last);
}

/* Where nothing is held, of the held signals the count alone is read; the places past it are zero. */
static void make_idle(const struct job *job)
{
    uint32_t held = job->bytes[PLEX_THREAD_HELD_COUNT];
    memset(job->bytes, 0, PLEX_THREAD_HELD_COUNT);
    put16(job->bytes + PLEX_THREAD_LABEL, PLEX_IDLE);
    if (held != 0)
        memset(job->bytes + PLEX_THREAD_HELD_COUNT, 0,
               PLEX_THREAD_HELD - PLEX_THREAD_HELD_COUNT + PLEX_SIGNAL_SIZE * held);
}

uint32_t plain_end_job(const struct job *job, uint32_t result)
{
    retire_tree(job);
    make_idle(job);
    return result;
}

uint32_t plain_leave(const struct job *job)
{
    uint32_t held = job->bytes[PLEX_THREAD_HELD_COUNT], lost = 0;
    retire_tree(job);
    for (uint32_t i = 0; i < held; i++)
        lost += !add_tree(job->program, job->state, held_at(job->bytes, i));
    make_idle(job);
    return answer(PLEX_EXITED, lost);
}
