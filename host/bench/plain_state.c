/* Well-formed states, and the fresh one. */
#include "plain.h"
#include "plain_state.h"

/* The labels of a running thread: its own and those it returns to are below n,
 * in blocks open to it whose locks it holds. */
static bool labels_well_formed(const struct program *program, const uint8_t *thread_bytes, uint32_t thread)
{
    uint32_t locks = get16(thread_bytes + PLEX_THREAD_LOCKS);
    uint32_t returns = thread_bytes[PLEX_THREAD_RETURN_COUNT];
    uint32_t label = get16(thread_bytes + PLEX_THREAD_LABEL);
    for (uint32_t i = 0;; i++) {
        if (label >= program->records)
            return false;
        uint32_t block = block_of(program, label);
        if (!(locks >> lock_of(program->table, block) & 1) || !open_to(program, block, thread))
            return false;
        if (i == returns)
            return true;
        label = get16(thread_bytes + PLEX_THREAD_RETURNS + 2 * i);
    }
}

static bool registers_well_formed(const uint8_t *thread_bytes)
{
    uint32_t presence = get32(thread_bytes + PLEX_THREAD_PRESENCE);
    uint32_t stored = 0;
    for (uint32_t r = 0; r < PLEX_REGISTERS; r++)
        stored |= (uint32_t)(get16(thread_bytes + PLEX_THREAD_VALUES + 2 * r) != 0) << r;
    return presence <= first_registers(PLEX_REGISTERS) && (stored & ~presence) == 0;
}

/* A pending signal may have arrived or been sent; a held one was sent. */
enum { AT_PENDING = 1 << PLEX_BUFFERED | 1 << PLEX_EXTERNAL, AT_HELD = 1 << PLEX_BUFFERED };

/* Its entry is in the set, bit e for entry e. */
static bool signal_well_formed(const struct program *program, const uint8_t *signal, uint32_t entries)
{
    uint32_t label = get16(signal + PLEX_SIGNAL_LABEL);
    uint32_t count = signal[PLEX_SIGNAL_COUNT];
    if (label >= program->records || count > PLEX_REGISTERS)
        return false;
    uint32_t entry = record_at(program->image, label)[PLEX_RECORD_ENTRY];
    return (entries >> entry & 1) && all_zero(signal + PLEX_SIGNAL_VALUES + 2 * count, VALUES_SIZE - 2 * count);
}

/* So many signals, and zero bytes in the other places. */
static bool signals_well_formed(const struct program *program, const uint8_t *signal, uint32_t count, uint32_t places,
                                uint32_t entries)
{
    if (count > places)
        return false;
    for (uint32_t i = 0; i < count; i++, signal += PLEX_SIGNAL_SIZE)
        if (!signal_well_formed(program, signal, entries))
            return false;
    return all_zero(signal, PLEX_SIGNAL_SIZE * (places - count));
}

static bool thread_well_formed(const struct program *program, const uint8_t *state, uint32_t thread)
{
    const uint8_t *bytes = thread_at(state, thread);
    if (get16(bytes + PLEX_THREAD_LABEL) == PLEX_IDLE)
        return words_zero(bytes + PLEX_THREAD_LOCKS, PLEX_THREAD_SIZE - PLEX_THREAD_LOCKS);
    uint32_t returns = bytes[PLEX_THREAD_RETURN_COUNT];
    return returns <= PLEX_RETURNS_MAX &&
           all_zero(bytes + PLEX_THREAD_RETURNS + 2 * returns, 2 * (PLEX_RETURNS_MAX - returns)) &&
           registers_well_formed(bytes) && labels_well_formed(program, bytes, thread) &&
           signals_well_formed(program, held_at(bytes, 0), bytes[PLEX_THREAD_HELD_COUNT], PLEX_HELD_MAX, AT_HELD);
}

/* Also that no lock is in two sets; notes in running which threads are not idle. */
static bool threads_well_formed(const struct program *program, const uint8_t *state, uint32_t *running)
{
    uint32_t held = 0;
    *running = 0;
    for (uint32_t thread = 0; thread < PLEX_THREADS; thread++) {
        const uint8_t *bytes = thread_at(state, thread);
        uint32_t locks = get16(bytes + PLEX_THREAD_LOCKS);
        if ((locks & held) != 0 || !thread_well_formed(program, state, thread))
            return false;
        held |= locks;
        *running |= (uint32_t)(get16(bytes + PLEX_THREAD_LABEL) != PLEX_IDLE) << thread;
    }
    return true;
}

/* A tree by itself: counts, thread number, signals, and zero bytes after them. */
static bool tree_well_formed(const struct program *program, const uint8_t *tree)
{
    return tree[PLEX_TREE_THREAD] < PLEX_THREADS &&
           signals_well_formed(program, signal_at(tree, 0), tree[PLEX_TREE_PENDING], PLEX_PENDING_MAX, AT_PENDING);
}

/* Every running thread has a tree; only its first may be empty or away from the
 * thread of its oldest signal's block. */
static bool trees_well_formed(const struct program *program, const uint8_t *state, uint32_t running)
{
    uint32_t count = state[PLEX_STATE_TREE_COUNT];
    uint32_t without_tree = running;
    if (count > PLEX_TREES_MAX)
        return false;
    for (uint32_t i = 0; i < count; i++) {
        const uint8_t *tree = tree_at(state, i);
        if (!tree_well_formed(program, tree))
            return false;
        uint32_t thread = tree[PLEX_TREE_THREAD];
        if (without_tree >> thread & 1)
            without_tree &= ~(1u << thread);
        else if (tree[PLEX_TREE_PENDING] == 0 || thread_of_oldest(program, tree) != thread)
            return false;
    }
    return without_tree == 0 && all_zero(tree_at(state, count), PLEX_TREE_SIZE * (PLEX_TREES_MAX - count));
}

bool plain_state_well_formed(const struct program *program, const uint8_t *state)
{
    uint32_t running;
    return threads_well_formed(program, state, &running) && trees_well_formed(program, state, running);
}

uint32_t plain_fresh(const uint8_t *image, size_t image_len, const uint8_t *table, size_t table_len,
                     const uint8_t *words, size_t words_len, uint8_t *state, size_t state_len)
{
    uint32_t refusal = plain_check(image, image_len, table, table_len);
    if (refusal != 0)
        return refusal;
    if (state_len != PLEX_STATE_SIZE)
        return refuse(PLEX_BAD_STATE_LENGTH, 0);
    if (words_len != PLEX_WORDS_SIZE)
        return refuse(PLEX_BAD_WORDS_LENGTH, 0);
    memcpy(state, words, PLEX_WORDS_SIZE);
    memset(state + PLEX_WORDS_SIZE, 0, PLEX_STATE_SIZE - PLEX_WORDS_SIZE);
    for (uint32_t thread = 0; thread < PLEX_THREADS; thread++)
        put16(state + PLEX_STATE_THREADS + PLEX_THREAD_SIZE * thread + PLEX_THREAD_LABEL, PLEX_IDLE);
    return 0;
}
