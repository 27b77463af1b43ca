#include "plain_states.h"
#include "damage.h"
#include "fields.h"

static uint32_t block_of_label(const struct machine *machine, uint32_t label)
{
    return record_at(machine->image, label)[PLEX_RECORD_BLOCK];
}

static uint32_t lock_of_label(const struct machine *machine, uint32_t label)
{
    return lock_of(machine->table, block_of_label(machine, label));
}

/* At times damages how many signals the thread holds, or the first one's label or value count; says
 * whether it did. */
static bool damage_held(uint8_t *thread)
{
    if (thread[PLEX_THREAD_HELD_COUNT] == 0 || below(4) != 0)
        return false;
    damage(thread + PLEX_THREAD_HELD_COUNT, 1 + PLEX_SIGNAL_VALUES);
    return true;
}

/* At times gives a running thread the lock with its block's number in place of its block's lock, or takes
 * or gives it any lock; says whether it did. */
static bool damage_locks(const struct machine *machine, uint8_t *thread)
{
    uint32_t label = get16(thread + PLEX_THREAD_LABEL), locks = get16(thread + PLEX_THREAD_LOCKS);
    if (label == PLEX_IDLE || below(16) != 0)
        return false;
    if (below(2) == 0)
        locks = (locks & ~(1u << lock_of_label(machine, label))) | 1u << block_of_label(machine, label);
    else
        locks ^= 1u << below(PLEX_LOCKS);
    put16(thread + PLEX_THREAD_LOCKS, locks);
    return true;
}

/* At times damages a byte or two where threads and live trees are. */
static void damage_bytes(uint8_t *state)
{
    size_t end = PLEX_STATE_TREES + PLEX_TREE_SIZE * (size_t)state[PLEX_STATE_TREE_COUNT];
    for (uint32_t edits = below(3); edits > 0; edits--)
        damage(state + PLEX_STATE_THREADS, end - PLEX_STATE_THREADS);
}

enum damaged_part damage_state(const struct machine *machine, uint8_t *state)
{
    for (uint32_t i = 0; i < PLEX_THREADS; i++) {
        uint8_t *thread = state + PLEX_STATE_THREADS + PLEX_THREAD_SIZE * i;
        if (damage_held(thread))
            return HELD_SIGNALS;
        if (damage_locks(machine, thread))
            return LOCK_SETS;
    }
    damage_bytes(state);
    return ANY_BYTES;
}

static bool is_twice_in_group(const struct machine *machine, const uint8_t *thread)
{
    uint32_t label = get16(thread + PLEX_THREAD_LABEL);
    for (uint32_t i = 0; i < thread[PLEX_THREAD_RETURN_COUNT]; i++) {
        uint32_t back = get16(thread + PLEX_THREAD_RETURNS + 2 * i);
        if (block_of_label(machine, back) != block_of_label(machine, label) &&
            lock_of_label(machine, back) == lock_of_label(machine, label))
            return true;
    }
    return false;
}

bool is_job_twice_in_group(const struct machine *machine, const uint8_t *state)
{
    bool any = false;
    for (uint32_t i = 0; i < PLEX_THREADS; i++)
        any = any || is_twice_in_group(machine, thread_at(state, i));
    return any;
}
