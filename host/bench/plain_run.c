/* Run: the events tested at the door, then carried out one by one. */
#include "plain.h"
#include "plain_job.h"

static bool event_holds(const struct program *program, const uint8_t *event)
{
    const uint8_t *signal = event + PLEX_EVENT_SIGNAL;
    uint32_t kind = event[PLEX_EVENT_KIND];
    if (kind == PLEX_STEP || kind == PLEX_CUT)
        return event[PLEX_EVENT_THREAD] < PLEX_THREADS && words_zero(signal, PLEX_SIGNAL_SIZE);
    uint32_t label = get16(signal + PLEX_SIGNAL_LABEL);
    uint32_t count = signal[PLEX_SIGNAL_COUNT];
    return kind == PLEX_ARRIVAL && event[PLEX_EVENT_THREAD] == 0 && label < program->records &&
           record_at(program->image, label)[PLEX_RECORD_ENTRY] == PLEX_EXTERNAL && count <= PLEX_REGISTERS &&
           all_zero(signal + PLEX_SIGNAL_VALUES + 2 * count, VALUES_SIZE - 2 * count);
}

static uint32_t arrive(const struct program *program, uint8_t *state, const uint8_t *event)
{
    return answer(add_tree(program, state, event + PLEX_EVENT_SIGNAL) ? PLEX_ARRIVED : PLEX_LIST_FULL, 0);
}

/* An idle thread starts its first tree's oldest signal, or waits for its lock. */
static uint32_t start(const struct job *job)
{
    uint32_t index = first_tree(job->state, job->thread);
    if (index == job->state[PLEX_STATE_TREE_COUNT])
        return answer(PLEX_NO_WORK, 0);
    uint8_t *tree = job->state + PLEX_STATE_TREES + PLEX_TREE_SIZE * index;
    uint8_t *oldest = tree + PLEX_TREE_SIGNALS;
    uint32_t label = get16(oldest + PLEX_SIGNAL_LABEL);
    uint32_t lock = lock_of(job->program->table, block_of(job->program, label));
    if (holder_of(job->state, lock) != NO_THREAD)
        return answer(PLEX_WAITING, lock);
    put16(job->bytes + PLEX_THREAD_LABEL, label);
    put16(job->bytes + PLEX_THREAD_LOCKS, 1u << lock);
    put32(job->bytes + PLEX_THREAD_PRESENCE, first_registers(oldest[PLEX_SIGNAL_COUNT]));
    memcpy(job->bytes + PLEX_THREAD_VALUES, oldest + PLEX_SIGNAL_VALUES, VALUES_SIZE);
    uint32_t left = tree[PLEX_TREE_PENDING] - 1u;
    memmove(oldest, oldest + PLEX_SIGNAL_SIZE, PLEX_SIGNAL_SIZE * left);
    memset(oldest + PLEX_SIGNAL_SIZE * left, 0, PLEX_SIGNAL_SIZE);
    tree[PLEX_TREE_PENDING] = (uint8_t)left;
    return answer(PLEX_STARTED, 0);
}

static uint32_t carry_out(const struct program *program, uint8_t *state, const uint8_t *event)
{
    if (event[PLEX_EVENT_KIND] == PLEX_ARRIVAL)
        return arrive(program, state, event);
    uint32_t thread = event[PLEX_EVENT_THREAD];
    uint8_t *bytes = state + PLEX_STATE_THREADS + PLEX_THREAD_SIZE * thread;
    struct job job = {program, state, bytes, thread};
    bool idle = get16(bytes + PLEX_THREAD_LABEL) == PLEX_IDLE;
    if (event[PLEX_EVENT_KIND] == PLEX_STEP)
        return idle ? start(&job) : plain_step(&job);
    return idle ? answer(PLEX_NOTHING_TO_CUT, 0) : plain_end_job(&job, answer(PLEX_WAS_CUT, 0));
}

/* The refusals that concern the events and the answers. */
static uint32_t refusal_of_events(const struct program *program, const uint8_t *events, size_t events_len,
                                  size_t answers_len)
{
    size_t count = events_len / PLEX_EVENT_SIZE;
    if (events_len % PLEX_EVENT_SIZE != 0 || count > PLEX_EVENTS_MAX)
        return refuse(PLEX_BAD_EVENTS_LENGTH, 0);
    for (uint32_t i = 0; i < count; i++)
        if (!event_holds(program, events + PLEX_EVENT_SIZE * i))
            return refuse(PLEX_BAD_EVENT, i);
    if (answers_len != PLEX_ANSWER_SIZE * count)
        return refuse(PLEX_BAD_ANSWERS_LENGTH, 0);
    return 0;
}

uint32_t plain_run(const uint8_t *image, size_t image_len, const uint8_t *table, size_t table_len, uint8_t *state,
                   size_t state_len, const uint8_t *events, size_t events_len, uint8_t *answers, size_t answers_len)
{
    uint32_t refusal = plain_check(image, image_len, table, table_len);
    if (refusal != 0)
        return refusal;
    struct program program = {image, table, (uint32_t)(image_len / PLEX_RECORD_SIZE)};
    if (state_len != PLEX_STATE_SIZE)
        return refuse(PLEX_BAD_STATE_LENGTH, 0);
    if (!plain_state_well_formed(&program, state))
        return refuse(PLEX_BAD_STATE, 0);
    refusal = refusal_of_events(&program, events, events_len, answers_len);
    if (refusal != 0)
        return refusal;
    for (size_t i = 0; i < events_len / PLEX_EVENT_SIZE; i++)
        put16(answers + PLEX_ANSWER_SIZE * i, carry_out(&program, state, events + PLEX_EVENT_SIZE * i));
    return 0;
}
