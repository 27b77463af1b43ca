/* Statements, events, answers, locks, threads, packed numbers, amounts and names in words, one of each sort. */
#include "amounts.h"
#include "build.h"
#include "names.h"
#include "packed.h"
#include "words.h"

#include <stdio.h>
#include <string.h>

static const struct {
    struct statement statement;
    const char *words;
} statements[] = {
    {{0, 0, PLEX_SKIP, 0, 5, 0, 0, {NUMBER(0)}}, "SKIP, on to 5"},
    {{0, 0, PLEX_ASSIGN, PLEX_COPY, 1, 0, 2, {WORD(15), NUMBER(7)}}, "ASSIGN w15 := 7, on to 1"},
    {{0, 0, PLEX_ASSIGN, PLEX_ADD, 1, 0, 3, {REGISTER(2), WORD(3), REGISTER(24)}}, "ASSIGN r2 := w3 + r24, on to 1"},
    {{0, 0, PLEX_ASSIGN, PLEX_SUBTRACT, 511, 0, 3, {REGISTER(2), NUMBER(65535), WORD(0)}},
     "ASSIGN r2 := 65535 - w0, on to 511"},
    {{0, 0, PLEX_ASSIGN, PLEX_MULTIPLY, 1, 0, 3, {WORD(0), WORD(0), WORD(0)}}, "ASSIGN w0 := w0 * w0, on to 1"},
    {{0, 0, PLEX_DIVIDE, 0, 1, 0, 4, {REGISTER(24), WORD(15), WORD(3), NUMBER(10)}},
     "DIVIDE r24, w15 := w3 / 10, on to 1"},
    {{0, 0, PLEX_DIVIDE, 0, 511, 0, 4, {WORD(3), REGISTER(3), REGISTER(0), REGISTER(3)}},
     "DIVIDE w3, r3 := r0 / r3, on to 511"},
    {{0, 0, PLEX_PACK, 0, 4, 0, 2, {REGISTER(0), REGISTER(1)}}, "PACK r0 := r1, on to 4"},
    {{0, 0, PLEX_PACK, 0, 4, 0, 2, {WORD(15), NUMBER(10000)}}, "PACK w15 := 10000, on to 4"},
    {{0, 0, PLEX_UNPACK, 0, 511, 0, 2, {REGISTER(24), WORD(2)}}, "UNPACK r24 := w2, on to 511"},
    {{0, 0, PLEX_UNPACK, 0, 4, 0, 2, {REGISTER(0), NUMBER(0x1234)}}, "UNPACK r0 := packed 1234, on to 4"},
    {{0, 0, PLEX_UNPACK, 0, 4, 0, 2, {REGISTER(0), NUMBER(0)}}, "UNPACK r0 := packed 0000, on to 4"},
    {{0, 0, PLEX_UNPACK, 0, 4, 0, 2, {REGISTER(0), NUMBER(0xa)}}, "UNPACK r0 := (not packed: 0x000a), on to 4"},
    {{0, 0, PLEX_UNPACK, 0, 4, 0, 2, {REGISTER(0), NUMBER(0xa000)}}, "UNPACK r0 := (not packed: 0xa000), on to 4"},
    {{0, 0, PLEX_DECIMAL_ADD, 0, 4, 0, 3, {REGISTER(0), REGISTER(1), WORD(2)}}, "DECIMAL ADD r0 := r1 + w2, on to 4"},
    {{0, 0, PLEX_DECIMAL_ADD, 0, 4, 0, 3, {WORD(0), NUMBER(0x42), NUMBER(0x12a4)}},
     "DECIMAL ADD w0 := packed 0042 + (not packed: 0x12a4), on to 4"},
    {{0, 0, PLEX_DECIMAL_ADD, 0, 4, 0, 3, {NUMBER(0x42), NUMBER(0x9999), {9, 8}}},
     "DECIMAL ADD 66 := packed 9999 + (kind 9: 8), on to 4"},
    {{0, 0, PLEX_GOTO, 0, 300, 0, 0, {NUMBER(0)}}, "GOTO 300"},
    {{0, 0, PLEX_IF, PLEX_EQUAL, 3, 4, 2, {REGISTER(0), NUMBER(1)}}, "IF r0 = 1 THEN 3 ELSE 4"},
    {{0, 0, PLEX_IF, PLEX_LESS, 3, 4, 2, {REGISTER(0), WORD(1)}}, "IF r0 < w1 THEN 3 ELSE 4"},
    {{0, 0, PLEX_SEND_DIRECT, 0, 9, 0, 2, {NUMBER(1), WORD(2)}}, "SEND direct to 9 WITH 1, w2"},
    {{0, 0, PLEX_SEND_BUFFERED, 0, 9, 2, 0, {NUMBER(0)}}, "SEND buffered to 9, on to 2"},
    {{0, 0, PLEX_SEND_TREE, 0, 9, 2, 2, {WORD(1), REGISTER(0)}}, "SEND JOBTREE to 9 WITH w1, r0, on to 2"},
    {{0, 0, PLEX_CALL, 0, 9, 2, 1, {REGISTER(0)}}, "CALL to 9 WITH r0, return to 2"},
    {{0, 0, PLEX_RETURN, 0, 0, 0, 1, {REGISTER(0)}}, "RETURN WITH r0"},
    {{0, 0, PLEX_TRANSFER, 0, 9, 0, 1, {REGISTER(0)}}, "TRANSFER to 9 WITH r0"},
    {{0, 0, PLEX_EXIT, 0, 0, 0, 0, {NUMBER(0)}}, "EXIT"},
    {{0, 0, PLEX_RETURN, 0, 0, 0, 1, {{9, 8}}}, "RETURN WITH (kind 9: 8)"},
    {{0, 0, PLEX_IF, 7, 3, 4, 2, {NUMBER(0), NUMBER(1)}}, "IF 0 unknown 1 THEN 3 ELSE 4"},
    {{0, 0, 77, 0, 0, 0, 0, {NUMBER(0)}}, "unknown opcode 77"},
};

static const struct {
    uint8_t answer[PLEX_ANSWER_SIZE];
    const char *words;
} answers[] = {
    {{PLEX_ARRIVED, 0}, "arrived"},
    {{PLEX_LIST_FULL, 0}, "turned away, the list is full"},
    {{PLEX_NO_WORK, 0}, "no work"},
    {{PLEX_WAITING, 9}, "waiting for lock 9 of blocks 1 2 15"},
    {{PLEX_WAITING, 2}, "waiting for lock 2 of block 0"},
    {{PLEX_WAITING, 0}, "waiting for lock 0 of no block of the image"},
    {{PLEX_WAITING, PLEX_LOCKS}, "waiting for lock 16"},
    {{PLEX_STARTED, 0}, "started"},
    {{PLEX_MOVED_ON, 0}, "moved on"},
    {{PLEX_EXITED, 0}, "EXIT"},
    {{PLEX_EXITED, 1}, "EXIT, 1 held signal lost"},
    {{PLEX_EXITED, 4}, "EXIT, 4 held signals lost"},
    {{PLEX_TRAPPED, PLEX_HELD_FULL}, "trap 6, SEND JOBTREE with 4 signals held"},
    {{PLEX_TRAPPED, PLEX_RETURNS_FULL}, "trap 3, CALL with 8 return labels"},
    {{PLEX_TRAPPED, PLEX_BELOW_ZERO}, "trap 7, subtraction below zero"},
    {{PLEX_TRAPPED, PLEX_ZERO_DIVISOR}, "trap 8, division by zero"},
    {{PLEX_TRAPPED, PLEX_NOT_DECIMAL}, "trap 9, a number above 9,999 packed, or a digit above 9"},
    {{PLEX_WAS_CUT, 0}, "cut"},
    {{PLEX_NOTHING_TO_CUT, 0}, "nothing to cut"},
    {{11, 0}, "unknown"},
};

/* Lock 9 guards three blocks, lock 2 one. */
static const struct groups groups = {.blocks = {[9] = 1u << 1 | 1u << 2 | 1u << 15, [2] = 1u << 0}};

static int failed;

static void expect(const struct line *line, const char *words)
{
    if (strcmp(line->text, words) != 0) {
        printf("words: '%s', expected '%s'\n", line->text, words);
        failed = 1;
    }
}

static void try_rows(void)
{
    uint8_t table[PLEX_TABLE_SIZE];
    struct line fd = {0}, cmx = {0}, unknown = {0};
    put_row(table, 0, 7, PLEX_FD, 15);
    put_row(table, 1, 0, PLEX_CMX, 9);
    put_row(table, 2, 255, 2, 16);
    add_row(&fd, row_at(table, 0));
    expect(&fd, "thread 7, FD, lock 15");
    add_row(&cmx, row_at(table, 1));
    expect(&cmx, "thread 0, CMX, lock 9");
    add_row(&unknown, row_at(table, 2));
    expect(&unknown, "thread 255, unknown kind 2, lock 16");
}

static void try_events(void)
{
    static const uint16_t values[] = {7, 65535};
    uint8_t event[PLEX_EVENT_SIZE];
    struct line arrival = {0}, step = {0}, cut = {0};
    put_arrival(event, 300, values, 2);
    add_event(&arrival, event);
    expect(&arrival, "arrival at 300 WITH 7, 65535");
    put_step(event, 7);
    add_event(&step, event);
    expect(&step, "step of thread 7");
    put_cut(event, 0);
    add_event(&cut, event);
    expect(&cut, "cut of thread 0");
}

/* Steps, and a cut, of a thread at label 0. Register 1 is 42, register 2 packed 0075, no other is present; words 1 and
 * 2 of the block are 0x9950 and 0x12a4. What is stored is read from the state after it, where register 3 and word 3 are
 * 0x0025. */
enum { DECIMAL_THREAD = 7, DECIMAL_BLOCK = 15 };
static const struct {
    struct statement statement;
    uint8_t answer[PLEX_ANSWER_SIZE];
    const char *words;
} decimal_steps[] = {
    {{DECIMAL_BLOCK, 0, PLEX_PACK, 0, 1, 0, 2, {REGISTER(3), REGISTER(1)}},
     {PLEX_MOVED_ON, 0},
     "read 42, stored packed 0025"},
    {{DECIMAL_BLOCK, 0, PLEX_PACK, 0, 1, 0, 2, {WORD(3), NUMBER(10000)}},
     {PLEX_TRAPPED, PLEX_NOT_DECIMAL},
     "read 10000"},
    {{DECIMAL_BLOCK, 0, PLEX_UNPACK, 0, 1, 0, 2, {WORD(3), WORD(1)}},
     {PLEX_MOVED_ON, 0},
     "read packed 9950, stored 37"},
    {{DECIMAL_BLOCK, 0, PLEX_UNPACK, 0, 1, 0, 2, {REGISTER(3), WORD(2)}},
     {PLEX_TRAPPED, PLEX_NOT_DECIMAL},
     "read (not packed: 0x12a4)"},
    {{DECIMAL_BLOCK, 0, PLEX_DECIMAL_ADD, 0, 1, 0, 3, {WORD(3), WORD(1), REGISTER(2)}},
     {PLEX_MOVED_ON, 0},
     "read packed 9950, packed 0075, stored packed 0025"},
    {{DECIMAL_BLOCK, 0, PLEX_DECIMAL_ADD, 0, 1, 0, 3, {REGISTER(3), NUMBER(0x12), REGISTER(0)}},
     {PLEX_TRAPPED, PLEX_ABSENT_REGISTER},
     "read packed 0012, absent"},
    {{DECIMAL_BLOCK, 0, PLEX_PACK, 0, 1, 0, 2, {REGISTER(3), REGISTER(1)}}, {PLEX_WAS_CUT, 0}, ""},
    {{DECIMAL_BLOCK, 0, PLEX_ASSIGN, PLEX_ADD, 1, 0, 3, {REGISTER(3), REGISTER(1), REGISTER(2)}},
     {PLEX_MOVED_ON, 0},
     ""},
};

static void put_word(uint8_t *state, uint32_t word, uint32_t value)
{
    put16(state + PLEX_STATE_WORDS + 2 * (PLEX_BLOCK_WORDS * DECIMAL_BLOCK + word), value);
}

static void put_register(uint8_t *state, uint32_t number, uint32_t value)
{
    uint8_t *thread = state + PLEX_STATE_THREADS + PLEX_THREAD_SIZE * DECIMAL_THREAD;
    put32(thread + PLEX_THREAD_PRESENCE, get32(thread + PLEX_THREAD_PRESENCE) | 1u << number);
    put16(thread + PLEX_THREAD_VALUES + 2 * number, value);
}

static void try_decimal_steps(void)
{
    static uint8_t before[PLEX_STATE_SIZE], after[PLEX_STATE_SIZE];
    put_register(before, 1, 42);
    put_register(before, 2, 0x0075);
    put_word(before, 1, 0x9950);
    put_word(before, 2, 0x12a4);
    put_register(after, 3, 0x0025);
    put_word(after, 3, 0x0025);
    for (size_t i = 0; i < sizeof decimal_steps / sizeof decimal_steps[0]; i++) {
        uint8_t image[PLEX_RECORD_SIZE];
        struct line line = {0};
        put_statement(image, &decimal_steps[i].statement);
        add_decimal_step(&line, image, DECIMAL_THREAD, decimal_steps[i].answer, before, after);
        expect(&line, decimal_steps[i].words);
    }
}

/* A thread without signals that it holds, with some, and with more than it may hold. */
static void try_threads(void)
{
    uint8_t thread[PLEX_THREAD_SIZE] = {[PLEX_THREAD_LABEL] = 3, [PLEX_THREAD_LOCKS] = 5};
    struct line free_handed = {0}, holding = {0}, too_many = {0};
    add_thread(&free_handed, thread);
    expect(&free_handed, "at label 3, locks 0 2, return labels none");
    thread[PLEX_THREAD_HELD_COUNT] = 2;
    put16(thread + PLEX_THREAD_HELD + PLEX_SIGNAL_LABEL, 7);
    put16(thread + PLEX_THREAD_HELD + PLEX_SIGNAL_SIZE + PLEX_SIGNAL_LABEL, 511);
    add_thread(&holding, thread);
    expect(&holding, "at label 3, locks 0 2, return labels none, held labels 7 511");
    thread[PLEX_THREAD_HELD_COUNT] = PLEX_HELD_MAX + 1;
    add_thread(&too_many, thread);
    expect(&too_many, "at label 3, locks 0 2, return labels none, held labels 7 511 0 0");
}

/* Two blocks of the image with one lock, which block 7 has too; a block with lock 16, a record with
 * block 16, and no groups. */
static void try_groups(void)
{
    uint8_t image[4 * PLEX_RECORD_SIZE] = {0}, table[PLEX_TABLE_SIZE];
    struct line shared = {0}, alone = {0}, unknown = {0};
    static const uint8_t blocks[] = {3, 12, 5, PLEX_BLOCKS};
    put_lone_rows(table);
    put_row(table, 3, 0, PLEX_CMX, 7);
    put_row(table, 12, 1, PLEX_FD, 7);
    put_row(table, 5, 0, PLEX_CMX, PLEX_LOCKS);
    for (uint32_t label = 0; label < 4; label++)
        image[PLEX_RECORD_SIZE * label + PLEX_RECORD_BLOCK] = blocks[label];
    struct groups found = find_groups(image, 4, table);
    add_lock(&shared, 7, &found);
    expect(&shared, "lock 7 of blocks 3 12");
    add_lock(&alone, 5, &found);
    expect(&alone, "lock 5 of no block of the image");
    add_lock(&unknown, 7, NULL);
    expect(&unknown, "lock 7");
}

/* The numbers from 1 to the last have a name, and no others. */
static void try_names(const char *what, const char *(*name_of)(uint32_t), uint32_t last)
{
    for (uint32_t number = 0; number <= last + 1; number++) {
        int has_meaning = number >= 1 && number <= last;
        if ((strcmp(name_of(number), "unknown") != 0) != has_meaning) {
            printf("words: %s %u is '%s'\n", what, number, name_of(number));
            failed = 1;
        }
    }
}

/* Counts beyond every limit, and more words than a line has room for. */
static void try_any_bytes(void)
{
    uint8_t bytes[PLEX_THREAD_SIZE];
    struct line line = {0};
    memset(bytes, 255, sizeof bytes);
    for (uint8_t opcode = PLEX_SKIP; opcode <= PLEX_DECIMAL_ADD; opcode++) {
        bytes[PLEX_RECORD_OPCODE] = opcode;
        add_statement(&line, bytes);
        add_thread(&line, bytes);
        add_registers(&line, bytes);
        add_signal(&line, bytes);
    }
    if (line.length >= sizeof line.text || line.text[line.length] != '\0')
        failed = 1;
}

static void try_amounts(void)
{
    struct line line = {0};
    static const uint64_t amounts[] = {0, 7, 999, 1000, 9633, 65536, 999999, 1000000, UINT64_MAX};
    for (size_t i = 0; i < sizeof amounts / sizeof amounts[0]; i++)
        add(&line, "%s ", amount_of(amounts[i]).text);
    expect(&line, "0 7 999 1,000 9,633 65,536 999,999 1,000,000 18,446,744,073,709,551,615 ");
}

int main(void)
{
    for (size_t i = 0; i < sizeof statements / sizeof statements[0]; i++) {
        uint8_t record[PLEX_RECORD_SIZE];
        struct line line = {0};
        put_statement(record, &statements[i].statement);
        add_statement(&line, record);
        expect(&line, statements[i].words);
    }
    for (size_t i = 0; i < sizeof answers / sizeof answers[0]; i++) {
        struct line line = {0};
        add_answer(&line, answers[i].answer, &groups);
        expect(&line, answers[i].words);
    }
    try_rows();
    try_events();
    try_decimal_steps();
    try_threads();
    try_groups();
    try_amounts();
    try_names("opcode", opcode_name, PLEX_DECIMAL_ADD);
    try_names("trap", trap_name, PLEX_NOT_DECIMAL);
    try_names("refusal", refusal_name, PLEX_BAD_OUTPUT_LENGTH);
    try_any_bytes();
    return failed;
}
