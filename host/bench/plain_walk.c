/* The walk along waits: who waits for whom, read from the state alone. */
#include "plain.h"
#include "plain_state.h"

/* The holder a running thread's next step would wait for, or NO_THREAD. */
static uint32_t running_waits_for(const struct program *program, const uint8_t *state, uint32_t thread)
{
    const uint8_t *bytes = thread_at(state, thread);
    const uint8_t *record = record_at(program->image, get16(bytes + PLEX_THREAD_LABEL));
    uint8_t data[VALUES_SIZE];
    uint32_t opcode = record[PLEX_RECORD_OPCODE];
    if (opcode != PLEX_SEND_DIRECT && opcode != PLEX_CALL)
        return NO_THREAD;
    uint32_t block = block_of(program, get16(record + PLEX_RECORD_A));
    if (!read_data(state, bytes, record, data) ||
        trap_of_direct_or_call(program, bytes, thread, record, block) != NO_TRAP)
        return NO_THREAD;
    uint32_t holder = holder_of(state, lock_of(program->table, block));
    return holder == thread ? NO_THREAD : holder;
}

/* The holder an idle thread's next step would wait for, or NO_THREAD. */
static uint32_t idle_waits_for(const struct program *program, const uint8_t *state, uint32_t thread)
{
    uint32_t index = first_tree(state, thread);
    if (index == state[PLEX_STATE_TREE_COUNT])
        return NO_THREAD;
    uint32_t label = get16(tree_at(state, index) + PLEX_TREE_SIGNALS + PLEX_SIGNAL_LABEL);
    return holder_of(state, lock_of(program->table, block_of(program, label)));
}

static uint32_t waits_for(const struct program *program, const uint8_t *state, uint32_t thread)
{
    return get16(thread_at(state, thread) + PLEX_THREAD_LABEL) == PLEX_IDLE ? idle_waits_for(program, state, thread)
                                                                            : running_waits_for(program, state, thread);
}

uint32_t plain_walk(const uint8_t *image, size_t image_len, const uint8_t *table, size_t table_len,
                    const uint8_t *state, size_t state_len, uint32_t thread, uint8_t *met, size_t met_len)
{
    uint32_t refusal = plain_check(image, image_len, table, table_len);
    if (refusal != 0)
        return refusal;
    struct program program = {image, table, (uint32_t)(image_len / PLEX_RECORD_SIZE)};
    if (state_len != PLEX_STATE_SIZE)
        return refuse(PLEX_BAD_STATE_LENGTH, 0);
    if (!plain_state_well_formed(&program, state))
        return refuse(PLEX_BAD_STATE, 0);
    if (thread >= PLEX_THREADS)
        return refuse(PLEX_BAD_WALK_THREAD, 0);
    if (met_len != PLEX_MET_SIZE)
        return refuse(PLEX_BAD_MET_LENGTH, 0);
    uint32_t count = 0, already_met = 0;
    memset(met, 255, PLEX_MET_SIZE);
    while (thread != NO_THREAD && !(already_met >> thread & 1)) {
        met[count++] = (uint8_t)thread;
        already_met |= 1u << thread;
        thread = waits_for(&program, state, thread);
    }
    return thread == NO_THREAD ? count : count + 256;
}
