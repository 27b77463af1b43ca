#include "bench_jobs.h"

#include <stdbool.h>

enum { ROUTINE = 16, ROUND = 16 };

/* One routine; its blocks and labels are counted from its first. Further records are EXIT. */
static const struct statement routine[] = {
    {0, PLEX_EXTERNAL, PLEX_ASSIGN, PLEX_MULTIPLY, 1, 0, 3, {WORD(0), REGISTER(0), REGISTER(1)}},
    {0, PLEX_NO_ENTRY, PLEX_IF, PLEX_LESS, 2, 2, 2, {WORD(0), REGISTER(0)}},
    {0, PLEX_NO_ENTRY, PLEX_CALL, 0, 7, 3, 4, {REGISTER(0), REGISTER(1), WORD(0), NUMBER(7)}},
    {0, PLEX_NO_ENTRY, PLEX_SEND_BUFFERED, 0, 11, 4, 2, {REGISTER(0), REGISTER(1)}},
    {0, PLEX_NO_ENTRY, PLEX_TRANSFER, 0, 5, 0, 1, {REGISTER(1)}},
    {0, PLEX_DIRECT, PLEX_GOTO, 0, 6, 0, 0, {NUMBER(0)}},
    {0, PLEX_NO_ENTRY, PLEX_EXIT, 0, 0, 0, 0, {NUMBER(0)}},
    {1, PLEX_DIRECT, PLEX_SKIP, 0, 8, 0, 0, {NUMBER(0)}},
    {1, PLEX_NO_ENTRY, PLEX_ASSIGN, PLEX_SUBTRACT, 9, 0, 3, {WORD(1), REGISTER(0), REGISTER(1)}},
    {1, PLEX_NO_ENTRY, PLEX_SEND_DIRECT, 0, 10, 0, 3, {REGISTER(0), REGISTER(1), REGISTER(2)}},
    {1, PLEX_DIRECT, PLEX_RETURN, 0, 0, 0, 2, {REGISTER(0), REGISTER(1)}},
    {0, PLEX_BUFFERED, PLEX_ASSIGN, PLEX_COPY, 12, 0, 2, {WORD(2), REGISTER(0)}},
    {0, PLEX_NO_ENTRY, PLEX_EXIT, 0, 0, 0, 0, {NUMBER(0)}},
};

/* A job that founds two trees, and the job of such a tree; laid out as the routine above. */
static const struct statement founder[] = {
    {0, PLEX_EXTERNAL, PLEX_ASSIGN, PLEX_MULTIPLY, 1, 0, 3, {WORD(0), REGISTER(0), REGISTER(1)}},
    {0, PLEX_NO_ENTRY, PLEX_IF, PLEX_LESS, 2, 2, 2, {WORD(0), REGISTER(0)}},
    {0, PLEX_NO_ENTRY, PLEX_SEND_TREE, 0, 6, 3, 2, {REGISTER(0), REGISTER(1)}},
    {0, PLEX_NO_ENTRY, PLEX_SEND_TREE, 0, 6, 4, 2, {REGISTER(2), WORD(0)}},
    {0, PLEX_NO_ENTRY, PLEX_GOTO, 0, 5, 0, 0, {NUMBER(0)}},
    {0, PLEX_NO_ENTRY, PLEX_EXIT, 0, 0, 0, 0, {NUMBER(0)}},
    {1, PLEX_BUFFERED, PLEX_ASSIGN, PLEX_COPY, 7, 0, 2, {WORD(2), REGISTER(0)}},
    {1, PLEX_NO_ENTRY, PLEX_SKIP, 0, 8, 0, 0, {NUMBER(0)}},
    {1, PLEX_NO_ENTRY, PLEX_EXIT, 0, 0, 0, 0, {NUMBER(0)}},
};

static bool uses_a(uint8_t opcode)
{
    return opcode != PLEX_RETURN && opcode != PLEX_EXIT;
}

static bool uses_b(uint8_t opcode)
{
    return opcode == PLEX_IF || opcode == PLEX_SEND_BUFFERED || opcode == PLEX_CALL || opcode == PLEX_SEND_TREE;
}

static void put_routines(uint8_t *image, size_t records, const struct statement *statements, size_t length)
{
    static const struct statement leave = {0, PLEX_NO_ENTRY, PLEX_EXIT, 0, 0, 0, 0, {NUMBER(0)}};
    for (size_t label = 0; label < records; label++) {
        struct statement moved = label % ROUTINE < length ? statements[label % ROUTINE] : leave;
        uint16_t first = (uint16_t)(label - label % ROUTINE);
        moved.block = (uint8_t)((moved.block + first / ROUTINE * 2) % PLEX_BLOCKS);
        if (uses_a(moved.opcode))
            moved.a = (uint16_t)(moved.a + first);
        if (uses_b(moved.opcode))
            moved.b = (uint16_t)(moved.b + first);
        put_statement(image + PLEX_RECORD_SIZE * label, &moved);
    }
}

void bench_job_image(uint8_t *image, size_t records)
{
    put_routines(image, records, routine, sizeof routine / sizeof routine[0]);
}

void bench_founder_image(uint8_t *image, size_t records)
{
    put_routines(image, records, founder, sizeof founder / sizeof founder[0]);
}

void bench_job_events(uint8_t *events, size_t count, size_t records)
{
    /* The routine subtracts the second from the first, which is the larger: below zero its job would end. */
    static const uint16_t values[] = {300, 7, 5};
    uint32_t routines = (uint32_t)(records / ROUTINE);
    for (uint32_t i = 0; i < count; i++) {
        uint32_t turn = i / ROUND % routines;
        if (i % ROUND == 0 && count > 1)
            put_arrival(events + PLEX_EVENT_SIZE * i, ROUTINE * turn, values, 3);
        else
            put_step(events + PLEX_EVENT_SIZE * i, turn % PLEX_THREADS);
    }
}

void bench_send_image(uint8_t *image, size_t records, uint8_t blocks, uint8_t values)
{
    struct statement send = {0, PLEX_EXTERNAL, PLEX_SEND_DIRECT, 0, 0, 0, values, {NUMBER(0)}};
    for (uint8_t i = 0; i < values; i++)
        send.operands[i] = (struct operand)REGISTER(i);
    for (size_t label = 0; label < records; label++) {
        send.block = (uint8_t)(label % blocks);
        send.a = (uint16_t)(label + 1 < records ? label + 1 : 1);
        put_statement(image + PLEX_RECORD_SIZE * label, &send);
        send.entry = PLEX_DIRECT;
    }
}

/* What a job without end is sent. The results go to register 2, DIVIDE's remainder to word 0 or to a register that
 * nothing is read from. */
enum { DECIMALS = 8 };
enum { P, Q, RESULT, NUMBERS, PACKED = NUMBERS + DECIMALS, REMAINDER = PACKED + DECIMALS };
static const uint16_t loop_values[PLEX_REGISTERS] = {
    300, 7, 5, /* ASSIGN and DIVIDE read the first two, and DECIMAL ADD the third, as p: the sum so far, packed */
    0,   7, 40,   305,   1234,   5678,   8096,   9999,   /* PACK, by turns */
    0,   7, 0x40, 0x305, 0x1234, 0x5678, 0x8096, 0x9999, /* UNPACK, and DECIMAL ADD as q, by turns */
};

const struct bench_loop bench_addition = {
    {0, PLEX_EXTERNAL, PLEX_ASSIGN, PLEX_ADD, 0, 0, 3, {REGISTER(RESULT), REGISTER(P), REGISTER(Q)}}, 1};
const struct bench_loop bench_division = {
    {0, PLEX_EXTERNAL, PLEX_DIVIDE, 0, 0, 0, 4, {REGISTER(RESULT), WORD(0), REGISTER(P), REGISTER(Q)}}, 1};
const struct bench_loop bench_register_division = {
    {0, PLEX_EXTERNAL, PLEX_DIVIDE, 0, 0, 0, 4, {REGISTER(RESULT), REGISTER(REMAINDER), REGISTER(P), REGISTER(Q)}}, 1};
const struct bench_loop bench_packing = {
    {0, PLEX_EXTERNAL, PLEX_PACK, 0, 0, 0, 2, {REGISTER(RESULT), REGISTER(NUMBERS)}}, DECIMALS};
const struct bench_loop bench_unpacking = {
    {0, PLEX_EXTERNAL, PLEX_UNPACK, 0, 0, 0, 2, {REGISTER(RESULT), REGISTER(PACKED)}}, DECIMALS};
const struct bench_loop bench_decimal_sum = {
    {0, PLEX_EXTERNAL, PLEX_DECIMAL_ADD, 0, 0, 0, 3, {REGISTER(RESULT), REGISTER(RESULT), REGISTER(PACKED)}}, DECIMALS};

void bench_full_image(uint8_t *image, size_t records)
{
    bench_send_image(image, records, 1, PLEX_REGISTERS);
    for (size_t label = 0; label < records; label++) {
        uint8_t *record = image + PLEX_RECORD_SIZE * label;
        record[PLEX_RECORD_OPCODE] = PLEX_SEND_BUFFERED;
        record[PLEX_RECORD_ENTRY] = label == 0 ? PLEX_EXTERNAL : PLEX_BUFFERED;
        put16(record + PLEX_RECORD_B, get16(record + PLEX_RECORD_A));
    }
}

void bench_full_start(uint8_t *events)
{
    for (size_t i = 0; i < PLEX_TREES_MAX; i++)
        put_arrival(events + PLEX_EVENT_SIZE * i, 0, loop_values, PLEX_REGISTERS);
    bench_loop_events(events + PLEX_EVENT_SIZE * PLEX_TREES_MAX, FULL_START_EVENTS - PLEX_TREES_MAX);
}

void bench_loop_image(uint8_t *image, size_t records, const struct bench_loop *loop)
{
    struct statement moved = loop->statement;
    uint16_t *source = &moved.operands[moved.count - 1].value, first = *source;
    for (size_t label = 0; label < records; label++) {
        *source = (uint16_t)(first + label % loop->last_sources);
        moved.a = (uint16_t)((label + 1) % records);
        put_statement(image + PLEX_RECORD_SIZE * label, &moved);
    }
}

void bench_loop_start(uint8_t *events, uint8_t values)
{
    put_arrival(events, 0, loop_values, values);
    put_step(events + PLEX_EVENT_SIZE, 0);
}

void bench_loop_events(uint8_t *events, size_t count)
{
    for (size_t i = 0; i < count; i++)
        put_step(events + PLEX_EVENT_SIZE * i, 0);
}

void bench_ring_image(uint8_t *image, size_t records)
{
    static const struct statement leave = {0, PLEX_DIRECT, PLEX_EXIT, 0, 0, 0, 0, {NUMBER(0)}};
    for (uint16_t label = 0; label < records; label++)
        put_statement(image + PLEX_RECORD_SIZE * label, &leave);
    for (uint16_t thread = 0; thread < PLEX_THREADS; thread++) {
        uint16_t next = (uint16_t)((thread + 1) % PLEX_THREADS);
        struct statement send = {
            (uint8_t)thread, PLEX_EXTERNAL, PLEX_SEND_DIRECT, 0, (uint16_t)(PLEX_THREADS + next), 0, 0, {NUMBER(0)}};
        put_statement(image + PLEX_RECORD_SIZE * thread, &send);
        image[PLEX_RECORD_SIZE * (PLEX_THREADS + thread) + PLEX_RECORD_BLOCK] = (uint8_t)thread;
    }
}

void bench_ring_events(uint8_t *events)
{
    for (uint32_t thread = 0; thread < PLEX_THREADS; thread++) {
        put_arrival(events + PLEX_EVENT_SIZE * thread, thread, NULL, 0);
        put_step(events + PLEX_EVENT_SIZE * (PLEX_THREADS + thread), thread);
        put_step(events + PLEX_EVENT_SIZE * (2 * PLEX_THREADS + thread), thread);
    }
}
