/* One step of a running thread. */
#include "plain_decimal.h"
#include "plain_job.h"

static uint32_t trap(const struct job *job, uint32_t reason)
{
    return plain_end_job(job, answer(PLEX_TRAPPED, (uint32_t)reason));
}

static uint32_t move_on(const struct job *job, uint32_t label)
{
    put16(job->bytes + PLEX_THREAD_LABEL, label);
    return answer(PLEX_MOVED_ON, 0);
}

/* Stores to a register, which becomes present, or to a shared word of the block. */
static void store(const struct job *job, uint32_t block, const uint8_t *destination, uint32_t value)
{
    uint32_t number = get16(destination + PLEX_OPERAND_VALUE);
    if (destination[PLEX_OPERAND_KIND] == PLEX_REGISTER_OPERAND) {
        uint32_t presence = get32(job->bytes + PLEX_THREAD_PRESENCE);
        put32(job->bytes + PLEX_THREAD_PRESENCE, presence | 1u << number);
        put16(job->bytes + PLEX_THREAD_VALUES + 2 * number, value);
    } else {
        put16(job->state + 2 * (PLEX_BLOCK_WORDS * block + number), value);
    }
}

/* Stores to the record's only destination, and goes on to A. */
static uint32_t store_and_move_on(const struct job *job, const uint8_t *record, uint32_t value)
{
    store(job, record[PLEX_RECORD_BLOCK], operand_at(record, 0), value);
    return move_on(job, get16(record + PLEX_RECORD_A));
}

static uint32_t assign(const struct job *job, const uint8_t *record)
{
    uint32_t operation = record[PLEX_RECORD_OPERATOR], block = record[PLEX_RECORD_BLOCK], read = 0, q = 0;
    uint32_t p = operand_value(job->state, job->bytes, block, operand_at(record, 1), &read);
    if (operation != PLEX_COPY)
        q = operand_value(job->state, job->bytes, block, operand_at(record, 2), &read);
    if ((read & ~get32(job->bytes + PLEX_THREAD_PRESENCE)) != 0)
        return trap(job, PLEX_ABSENT_REGISTER);
    if (operation == PLEX_SUBTRACT && p < q)
        return trap(job, PLEX_BELOW_ZERO);
    uint32_t value = operation == PLEX_SUBTRACT ? p - q : operation == PLEX_MULTIPLY ? p * q : p + q;
    return store_and_move_on(job, record, value);
}

/* The value of a packing's or unpacking's p; returns whether no absent register was read. */
static inline bool read_one(const struct job *job, const uint8_t *record, uint32_t *p)
{
    uint32_t read = 0;
    *p = operand_value(job->state, job->bytes, record[PLEX_RECORD_BLOCK], operand_at(record, 1), &read);
    return (read & ~get32(job->bytes + PLEX_THREAD_PRESENCE)) == 0;
}

/* The values of the operand and of the one behind it; returns whether no absent register was read. */
static inline bool read_two(const struct job *job, const uint8_t *record, const uint8_t *operand, uint32_t *p,
                            uint32_t *q)
{
    uint32_t block = record[PLEX_RECORD_BLOCK], read = 0;
    *p = operand_value(job->state, job->bytes, block, operand, &read);
    *q = operand_value(job->state, job->bytes, block, operand + PLEX_OPERAND_SIZE, &read);
    return (read & ~get32(job->bytes + PLEX_THREAD_PRESENCE)) == 0;
}

/* A destination may be a source too: both are read before either result is stored. */
static uint32_t divide(const struct job *job, const uint8_t *record)
{
    uint32_t p, q;
    if (!read_two(job, record, operand_at(record, 2), &p, &q))
        return trap(job, PLEX_ABSENT_REGISTER);
    if (q == 0)
        return trap(job, PLEX_ZERO_DIVISOR);
    store(job, record[PLEX_RECORD_BLOCK], operand_at(record, 0), p / q);
    store(job, record[PLEX_RECORD_BLOCK], operand_at(record, 1), p % q);
    return move_on(job, get16(record + PLEX_RECORD_A));
}

static uint32_t pack(const struct job *job, const uint8_t *record)
{
    uint32_t p;
    if (!read_one(job, record, &p))
        return trap(job, PLEX_ABSENT_REGISTER);
    if (p > LARGEST_DECIMAL)
        return trap(job, PLEX_NOT_DECIMAL);
    return store_and_move_on(job, record, packed_number(p));
}

static uint32_t unpack(const struct job *job, const uint8_t *record)
{
    uint32_t p;
    if (!read_one(job, record, &p))
        return trap(job, PLEX_ABSENT_REGISTER);
    if (!is_packed(p))
        return trap(job, PLEX_NOT_DECIMAL);
    return store_and_move_on(job, record, unpacked_number(p));
}

static uint32_t add_decimals(const struct job *job, const uint8_t *record)
{
    uint32_t p, q;
    if (!read_two(job, record, operand_at(record, 1), &p, &q))
        return trap(job, PLEX_ABSENT_REGISTER);
    if (!is_packed(p) || !is_packed(q))
        return trap(job, PLEX_NOT_DECIMAL);
    return store_and_move_on(job, record, packed_sum(p, q));
}

static uint32_t branch(const struct job *job, const uint8_t *record)
{
    uint32_t p, q;
    if (!read_two(job, record, operand_at(record, 0), &p, &q))
        return trap(job, PLEX_ABSENT_REGISTER);
    bool holds = record[PLEX_RECORD_OPERATOR] == PLEX_EQUAL ? p == q : p < q;
    return move_on(job, get16(record + (holds ? PLEX_RECORD_A : PLEX_RECORD_B)));
}

/* Direct SEND and CALL: the only statements that take a lock. One that the job holds, through whatever block,
 * nobody else holds. */
static uint32_t send_direct_or_call(const struct job *job, const uint8_t *record)
{
    uint8_t data[VALUES_SIZE];
    uint32_t label = get16(record + PLEX_RECORD_A);
    uint32_t block = block_of(job->program, label);
    if (!read_data(job->state, job->bytes, record, data))
        return trap(job, PLEX_ABSENT_REGISTER);
    uint32_t reason = trap_of_direct_or_call(job->program, job->bytes, job->thread, record, block);
    if (reason != NO_TRAP)
        return trap(job, reason);
    uint32_t lock = lock_of(job->program->table, block), locks = get16(job->bytes + PLEX_THREAD_LOCKS);
    if (!(locks >> lock & 1)) {
        if (holder_of(job->state, lock) != NO_THREAD)
            return answer(PLEX_WAITING, lock);
        put16(job->bytes + PLEX_THREAD_LOCKS, locks | 1u << lock);
    }
    if (record[PLEX_RECORD_OPCODE] == PLEX_CALL) {
        uint32_t returns = job->bytes[PLEX_THREAD_RETURN_COUNT]++;
        put16(job->bytes + PLEX_THREAD_RETURNS + 2 * returns, get16(record + PLEX_RECORD_B));
    }
    set_registers(job, data, record[PLEX_RECORD_COUNT]);
    return move_on(job, label);
}

static void put_signal(uint8_t *signal, const uint8_t *record, const uint8_t *data)
{
    put16(signal + PLEX_SIGNAL_LABEL, get16(record + PLEX_RECORD_A));
    signal[PLEX_SIGNAL_COUNT] = record[PLEX_RECORD_COUNT];
    put_values(signal + PLEX_SIGNAL_VALUES, data, record[PLEX_RECORD_COUNT]);
}

static uint32_t send_buffered(const struct job *job, const uint8_t *record)
{
    uint8_t data[VALUES_SIZE];
    if (!read_data(job->state, job->bytes, record, data))
        return trap(job, PLEX_ABSENT_REGISTER);
    uint32_t index = first_tree(job->state, job->thread);
    uint8_t *tree = job->state + PLEX_STATE_TREES + PLEX_TREE_SIZE * index;
    uint32_t pending = tree[PLEX_TREE_PENDING];
    if (pending == PLEX_PENDING_MAX)
        return trap(job, PLEX_PENDING_FULL);
    put_signal(tree + PLEX_TREE_SIGNALS + PLEX_SIGNAL_SIZE * pending, record, data);
    tree[PLEX_TREE_PENDING] = (uint8_t)(pending + 1);
    return move_on(job, get16(record + PLEX_RECORD_B));
}

/* SEND JOBTREE: the job holds the signal until it ends. */
static uint32_t send_tree(const struct job *job, const uint8_t *record)
{
    uint8_t data[VALUES_SIZE];
    if (!read_data(job->state, job->bytes, record, data))
        return trap(job, PLEX_ABSENT_REGISTER);
    uint32_t held = job->bytes[PLEX_THREAD_HELD_COUNT];
    if (held == PLEX_HELD_MAX)
        return trap(job, PLEX_HELD_FULL);
    put_signal(job->bytes + PLEX_THREAD_HELD + PLEX_SIGNAL_SIZE * held, record, data);
    job->bytes[PLEX_THREAD_HELD_COUNT] = (uint8_t)(held + 1);
    return move_on(job, get16(record + PLEX_RECORD_B));
}

/* RETURN takes the newest return label and keeps the locks. */
static uint32_t go_back(const struct job *job, const uint8_t *record)
{
    uint8_t data[VALUES_SIZE];
    if (!read_data(job->state, job->bytes, record, data))
        return trap(job, PLEX_ABSENT_REGISTER);
    if (job->bytes[PLEX_THREAD_RETURN_COUNT] == 0)
        return trap(job, PLEX_NO_RETURN_LABEL);
    uint32_t newest = --job->bytes[PLEX_THREAD_RETURN_COUNT];
    uint8_t *slot = job->bytes + PLEX_THREAD_RETURNS + 2 * newest;
    uint32_t label = get16(slot);
    put16(slot, 0);
    set_registers(job, data, record[PLEX_RECORD_COUNT]);
    return move_on(job, label);
}

/* TRANSFER writes its values and keeps the other registers. */
static uint32_t transfer(const struct job *job, const uint8_t *record)
{
    uint8_t data[VALUES_SIZE];
    if (!read_data(job->state, job->bytes, record, data))
        return trap(job, PLEX_ABSENT_REGISTER);
    uint32_t presence = get32(job->bytes + PLEX_THREAD_PRESENCE), count = record[PLEX_RECORD_COUNT];
    put32(job->bytes + PLEX_THREAD_PRESENCE, presence | first_registers(count));
    for (uint32_t i = 0; i < count; i++)
        put16(job->bytes + PLEX_THREAD_VALUES + 2 * i, get16(data + 2 * i));
    return move_on(job, get16(record + PLEX_RECORD_A));
}

static uint32_t skip(const struct job *job, const uint8_t *record)
{
    return move_on(job, get16(record + PLEX_RECORD_A));
}

static uint32_t leave(const struct job *job, const uint8_t *record)
{
    (void)record;
    return plain_leave(job);
}

/* What each opcode does. */
static uint32_t (*const statements[])(const struct job *job, const uint8_t *record) = {
    [PLEX_SKIP] = skip,
    [PLEX_ASSIGN] = assign,
    [PLEX_GOTO] = skip,
    [PLEX_IF] = branch,
    [PLEX_SEND_DIRECT] = send_direct_or_call,
    [PLEX_SEND_BUFFERED] = send_buffered,
    [PLEX_CALL] = send_direct_or_call,
    [PLEX_RETURN] = go_back,
    [PLEX_TRANSFER] = transfer,
    [PLEX_EXIT] = leave,
    [PLEX_SEND_TREE] = send_tree,
    [PLEX_DIVIDE] = divide,
    [PLEX_PACK] = pack,
    [PLEX_UNPACK] = unpack,
    [PLEX_DECIMAL_ADD] = add_decimals,
};

uint32_t plain_step(const struct job *job)
{
    const uint8_t *record = record_at(job->program->image, get16(job->bytes + PLEX_THREAD_LABEL));
    return statements[record[PLEX_RECORD_OPCODE]](job, record);
}
