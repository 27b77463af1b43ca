/* What is said of one fault at a time: of a calculation, of the block table's locks, and of a state. */
#include "faults.h"
#include "build.h"
#include "explain.h"

#include <stdio.h>
#include <string.h>

static uint8_t table[PLEX_TABLE_SIZE];
static uint32_t failures;

/* What is returned for a part at fault, 0 if it is accepted, and what is said of it. */
static void expect_said(uint32_t refusal, uint32_t expected, const struct line *why, const char *words)
{
    if (refusal == expected && strcmp(why->text, words) == 0)
        return;
    failures++;
    printf("explanations: number %u, place %u, '%s', expected %u, %u, '%s'\n", PLEX_NUMBER(refusal),
           PLEX_PLACE(refusal), why->text, PLEX_NUMBER(expected), PLEX_PLACE(expected), words);
}

static uint32_t refused_with(uint32_t number, uint32_t place)
{
    return 65536 * number + place;
}

/* A statement at label 0 that divides, packs, unpacks or adds packed numbers, and what is said of it; nothing if it
 * keeps the rules. Label 1 is in its block, label 2 in another one. */
static const struct {
    struct statement statement;
    const char *words;
} calculations[] = {
    {{0, 0, PLEX_DIVIDE, 0, 1, 0, 4, {REGISTER(3), WORD(3), REGISTER(0), NUMBER(10)}}, ""},
    {{0, 0, PLEX_DIVIDE, 0, 1, 0, 4, {WORD(0), WORD(1), WORD(1), WORD(0)}}, ""},
    {{0, 0, PLEX_DIVIDE, 1, 1, 0, 4, {REGISTER(3), WORD(3), REGISTER(0), NUMBER(10)}},
     "DIVIDE has no operator, so byte 3 is 0 and not 1"},
    {{0, 0, PLEX_DIVIDE, 0, 1, 0, 3, {REGISTER(3), WORD(3), REGISTER(0)}}, "its operand count is 3, and DIVIDE has 4"},
    {{0, 0, PLEX_DIVIDE, 0, 1, 0, 5, {REGISTER(3), WORD(3), REGISTER(0), NUMBER(10), NUMBER(0)}},
     "its operand count is 5, and DIVIDE has 4"},
    {{0, 0, PLEX_DIVIDE, 0, 2, 0, 4, {REGISTER(3), WORD(3), REGISTER(0), NUMBER(10)}},
     "label A is 2, in block 1, and here it is in the record's block 0"},
    {{0, 0, PLEX_DIVIDE, 0, 1, 1, 4, {REGISTER(3), WORD(3), REGISTER(0), NUMBER(10)}},
     "DIVIDE uses no label B, so it is 0 and not 1"},
    {{0, 0, PLEX_DIVIDE, 0, 1, 0, 4, {NUMBER(3), WORD(3), REGISTER(0), NUMBER(10)}},
     "the quotient's destination is a number, and it is a register or a shared word"},
    {{0, 0, PLEX_DIVIDE, 0, 1, 0, 4, {REGISTER(3), NUMBER(3), REGISTER(0), NUMBER(10)}},
     "the remainder's destination is a number, and it is a register or a shared word"},
    {{0, 0, PLEX_DIVIDE, 0, 1, 0, 4, {REGISTER(3), REGISTER(3), REGISTER(0), NUMBER(10)}},
     "both destinations are register 3, and DIVIDE has two different ones"},
    {{0, 0, PLEX_DIVIDE, 0, 1, 0, 4, {WORD(15), WORD(15), REGISTER(0), NUMBER(10)}},
     "both destinations are shared word 15, and DIVIDE has two different ones"},
    {{0, 0, PLEX_DIVIDE, 0, 1, 0, 4, {NUMBER(3), NUMBER(3), REGISTER(0), NUMBER(10)}},
     "the quotient's destination is a number, and it is a register or a shared word"},
    {{0, 0, PLEX_DIVIDE, 0, 1, 0, 4, {REGISTER(25), REGISTER(25), REGISTER(0), NUMBER(10)}},
     "operand 0 is register 25, and registers are 0 to 24"},
    {{0, 0, PLEX_DIVIDE, 0, 1, 0, 4, {REGISTER(3), REGISTER(3), REGISTER(0), WORD(16)}},
     "operand 3 is shared word 16, and a block's words are 0 to 15"},
    {{0, 0, PLEX_PACK, 0, 1, 0, 2, {REGISTER(24), NUMBER(10000)}}, ""},
    {{0, 0, PLEX_PACK, 1, 1, 0, 2, {REGISTER(3), WORD(3)}}, "PACK has no operator, so byte 3 is 0 and not 1"},
    {{0, 0, PLEX_PACK, 0, 1, 0, 3, {REGISTER(3), WORD(3), WORD(3)}}, "its operand count is 3, and PACK has 2"},
    {{0, 0, PLEX_PACK, 0, 2, 0, 2, {REGISTER(3), WORD(3)}},
     "label A is 2, in block 1, and here it is in the record's block 0"},
    {{0, 0, PLEX_PACK, 0, 1, 1, 2, {REGISTER(3), WORD(3)}}, "PACK uses no label B, so it is 0 and not 1"},
    {{0, 0, PLEX_PACK, 0, 1, 0, 2, {NUMBER(3), WORD(3)}},
     "the destination is a number, and it is a register or a shared word"},
    {{0, 0, PLEX_UNPACK, 0, 1, 0, 2, {WORD(15), NUMBER(0xffff)}}, ""},
    {{0, 0, PLEX_UNPACK, 2, 1, 0, 2, {REGISTER(3), WORD(3)}}, "UNPACK has no operator, so byte 3 is 0 and not 2"},
    {{0, 0, PLEX_UNPACK, 0, 1, 0, 1, {REGISTER(3)}}, "its operand count is 1, and UNPACK has 2"},
    {{0, 0, PLEX_UNPACK, 0, 3, 0, 2, {REGISTER(3), WORD(3)}}, "label A is 3, and the image's labels are below 3"},
    {{0, 0, PLEX_UNPACK, 0, 1, 2, 2, {REGISTER(3), WORD(3)}}, "UNPACK uses no label B, so it is 0 and not 2"},
    {{0, 0, PLEX_UNPACK, 0, 1, 0, 2, {NUMBER(0), WORD(3)}},
     "the destination is a number, and it is a register or a shared word"},
    {{0, 0, PLEX_DECIMAL_ADD, 0, 1, 0, 3, {WORD(0), WORD(0), WORD(0)}}, ""},
    {{0, 0, PLEX_DECIMAL_ADD, 2, 1, 0, 3, {REGISTER(3), WORD(3), NUMBER(1)}},
     "DECIMAL ADD has no operator, so byte 3 is 0 and not 2"},
    {{0, 0, PLEX_DECIMAL_ADD, 0, 1, 0, 2, {REGISTER(3), WORD(3)}}, "its operand count is 2, and DECIMAL ADD has 3"},
    {{0, 0, PLEX_DECIMAL_ADD, 0, 1, 0, 4, {REGISTER(3), WORD(3), NUMBER(1), NUMBER(1)}},
     "its operand count is 4, and DECIMAL ADD has 3"},
    {{0, 0, PLEX_DECIMAL_ADD, 0, 1, 1, 3, {REGISTER(3), WORD(3), NUMBER(1)}},
     "DECIMAL ADD uses no label B, so it is 0 and not 1"},
    {{0, 0, PLEX_DECIMAL_ADD, 0, 1, 0, 3, {NUMBER(0x9999), WORD(3), NUMBER(1)}},
     "the destination is a number, and it is a register or a shared word"},
    {{0, 0, PLEX_DECIMAL_ADD, 0, 1, 0, 3, {REGISTER(3), WORD(3), REGISTER(25)}},
     "operand 2 is register 25, and registers are 0 to 24"},
    {{0, 0, PLEX_DECIMAL_ADD + 1, 0, 1, 0, 3, {REGISTER(3), WORD(3), NUMBER(1)}}, "opcode 16 is none of 1 to 15"},
};

static void try_calculations(void)
{
    static const struct statement others[] = {{0, PLEX_NO_ENTRY, PLEX_EXIT, 0, 0, 0, 0, {NUMBER(0)}},
                                              {1, PLEX_NO_ENTRY, PLEX_EXIT, 0, 0, 0, 0, {NUMBER(0)}}};
    for (size_t i = 0; i < sizeof calculations / sizeof calculations[0]; i++) {
        uint8_t tried[3 * PLEX_RECORD_SIZE];
        const char *words = calculations[i].words;
        struct line why = {0};
        put_statement(tried, &calculations[i].statement);
        put_statements(tried + PLEX_RECORD_SIZE, others, 2);
        explain_record(&why, tried, 3, 0);
        expect_said(plex_check(tried, sizeof tried, table, sizeof table),
                    words[0] == '\0' ? 0 : refused_with(PLEX_BAD_RECORD, 0), &why, words);
    }
}

/* A job that holds two signals, one of them with a value, before it ends. */
static const struct statement holder[] = {
    {0, PLEX_EXTERNAL, PLEX_SEND_TREE, 0, 2, 1, 1, {REGISTER(0)}},
    {0, PLEX_NO_ENTRY, PLEX_SEND_TREE, 0, 2, 3, 0, {NUMBER(0)}},
    {0, PLEX_BUFFERED, PLEX_EXIT, 0, 0, 0, 0, {NUMBER(0)}},
    {0, PLEX_NO_ENTRY, PLEX_EXIT, 0, 0, 0, 0, {NUMBER(0)}},
};
enum { HOLDER_RECORDS = sizeof holder / sizeof holder[0], HOLDER_EVENTS = 4 };

/* A byte of the state that this job leaves, and what is said of the state if the byte is another: the
 * job is on thread 0, and the other threads are idle. */
enum {
    HOLDING = PLEX_STATE_THREADS,
    IDLE = HOLDING + PLEX_THREAD_SIZE,
    FIRST_HELD = HOLDING + PLEX_THREAD_HELD,
    SECOND_HELD = FIRST_HELD + PLEX_SIGNAL_SIZE
};
static const struct {
    uint32_t place;
    uint8_t byte;
    const char *words;
} faults[] = {
    {HOLDING + PLEX_THREAD_LOCKS + 1, 0, "thread 0 has label 3 without lock 15 of its block 0"},
    {HOLDING + PLEX_THREAD_HELD_COUNT, 5, "thread 0 holds 5 signals, and a thread holds at most 4"},
    {HOLDING + PLEX_THREAD_HELD_COUNT, 1, "a byte after the last held signal of thread 0 is not 0"},
    {HOLDING + PLEX_THREAD_HELD_COUNT, 3,
     "held signal 2 of thread 0: its label is 0, whose entry is external, and not buffered"},
    {HOLDING + PLEX_THREAD_SIZE - 1, 1, "a byte after the last held signal of thread 0 is not 0"},
    {FIRST_HELD + PLEX_SIGNAL_LABEL, 4,
     "held signal 0 of thread 0: its label is 4, and the image's labels are below 4"},
    {SECOND_HELD + PLEX_SIGNAL_LABEL, 1,
     "held signal 1 of thread 0: its label is 1, whose entry is none, and not buffered"},
    {FIRST_HELD + PLEX_SIGNAL_COUNT, 26,
     "held signal 0 of thread 0: its value count is 26, and a signal has 0 to 25 values"},
    {FIRST_HELD + PLEX_SIGNAL_COUNT, 0, "held signal 0 of thread 0: a byte after its last value is not 0"},
    {IDLE + PLEX_THREAD_HELD_COUNT, 1, "thread 1 is idle, and its held signals are not all 0"},
    {IDLE + PLEX_THREAD_SIZE - 1, 1, "thread 1 is idle, and its held signals are not all 0"},
    {IDLE + PLEX_THREAD_HELD_COUNT - 1, 1, "thread 1 is idle, and its other fields are not all 0"},
};

/* What the library returns for a state of the holder, and what is said of it. */
static void expect_state(const uint8_t *holding, const uint8_t *tried, uint32_t number, const char *words)
{
    uint8_t met[PLEX_MET_SIZE];
    struct line why = {0};
    uint32_t result = plex_walk(holding, HOLDER_RECORDS * PLEX_RECORD_SIZE, table, sizeof table, tried, PLEX_STATE_SIZE,
                                0, met, sizeof met);
    explain_state(&why, holding, HOLDER_RECORDS, table, tried);
    expect_said(PLEX_NUMBER(result) == 0 ? 0 : result, refused_with(number, 0), &why, words);
}

/* The lock of a job's block, and each rule of held signals, by itself. */
static void try_holder(void)
{
    static const uint16_t value = 7;
    static const uint8_t words[PLEX_WORDS_SIZE];
    uint8_t holding[HOLDER_RECORDS * PLEX_RECORD_SIZE], held[PLEX_STATE_SIZE], tried[PLEX_STATE_SIZE];
    uint8_t events[HOLDER_EVENTS * PLEX_EVENT_SIZE], answers[HOLDER_EVENTS * PLEX_ANSWER_SIZE];
    put_statements(holding, holder, HOLDER_RECORDS);
    put_arrival(events, 0, &value, 1);
    for (uint32_t i = 1; i < HOLDER_EVENTS; i++)
        put_step(events + PLEX_EVENT_SIZE * i, 0);
    if (plex_fresh(holding, sizeof holding, table, sizeof table, words, sizeof words, held, sizeof held) != 0 ||
        plex_run(holding, sizeof holding, table, sizeof table, held, sizeof held, events, sizeof events, answers,
                 sizeof answers) != 0)
        failures++;
    expect_state(holding, held, 0, "");
    for (size_t i = 0; i < sizeof faults / sizeof faults[0]; i++) {
        memcpy(tried, held, sizeof tried);
        tried[faults[i].place] = faults[i].byte;
        expect_state(holding, tried, PLEX_BAD_STATE, faults[i].words);
    }
}

/* A lock above the last, in the row of each block. */
static void try_locks(void)
{
    uint8_t image[HOLDER_RECORDS * PLEX_RECORD_SIZE];
    put_statements(image, holder, HOLDER_RECORDS);
    for (uint32_t block = 0; block < PLEX_BLOCKS; block++) {
        uint8_t tried[PLEX_TABLE_SIZE];
        struct line why = {0};
        memcpy(tried, table, sizeof tried);
        tried[PLEX_ROW_SIZE * block + PLEX_ROW_LOCK] = PLEX_LOCKS;
        explain_row(&why, tried, block);
        expect_said(plex_check(image, sizeof image, tried, sizeof tried), refused_with(PLEX_BAD_TABLE_FIELD, block),
                    &why, "its lock is 16, and locks are 0 to 15");
    }
}

/* Every block has a lock of its own; the highest one is that of block 0, where the jobs are. */
uint32_t try_faults(void)
{
    put_lone_rows(table);
    put_row(table, 0, 0, PLEX_FD, PLEX_LOCKS - 1);
    put_row(table, PLEX_BLOCKS - 1, 0, PLEX_FD, 0);
    try_calculations();
    try_holder();
    try_locks();
    return failures;
}
