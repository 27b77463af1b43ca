/* The header by itself, in the part of the language that C and C++ share: the five calls on bytes carry out
 * the whole-list trial, calculate, found trees, wait for a lock of two blocks and link two guests. */
#include "header.h"

#include <stdio.h>
#include <string.h>

enum { EVENTS = 5, FOUNDER_EVENTS = 7, MANY = PLEX_RECORDS_MAX - 1 };

uint8_t image[RECORDS * PLEX_RECORD_SIZE], table[PLEX_TABLE_SIZE], words[PLEX_WORDS_SIZE], state[PLEX_STATE_SIZE];
static uint8_t events[FOUNDER_EVENTS * PLEX_EVENT_SIZE];
static uint8_t answers[FOUNDER_EVENTS * PLEX_ANSWER_SIZE], met[PLEX_MET_SIZE];
static uint8_t second[sizeof image], linked[2 * sizeof image], exits[MANY * PLEX_RECORD_SIZE];
static int failed;

void expect(const char *what, int holds)
{
    if (!holds) {
        printf("header: %s: not so\n", what);
        failed = 1;
    }
}

void put_operand(uint8_t *record, int index, uint8_t kind, uint16_t value)
{
    uint8_t *operand = record + PLEX_RECORD_OPERANDS + index * PLEX_OPERAND_SIZE;
    operand[PLEX_OPERAND_KIND] = kind;
    operand[PLEX_OPERAND_VALUE] = value & 0xFF;
    operand[PLEX_OPERAND_VALUE + 1] = value >> 8;
}

/* The image, and one arrival at label 0 and steps of thread 0: four, and some for the founder. */
static void fill(void)
{
    image[PLEX_RECORD_OPCODE] = PLEX_ASSIGN;
    image[PLEX_RECORD_ENTRY] = PLEX_EXTERNAL;
    image[PLEX_RECORD_OPERATOR] = PLEX_COPY;
    image[PLEX_RECORD_A] = 1;
    image[PLEX_RECORD_COUNT] = 2;
    put_operand(image, 0, PLEX_WORD_OPERAND, 0);
    put_operand(image, 1, PLEX_NUMBER_OPERAND, 7);
    image[PLEX_RECORD_SIZE + PLEX_RECORD_OPCODE] = PLEX_EXIT;
    events[PLEX_EVENT_KIND] = PLEX_ARRIVAL;
    for (int i = 1; i < FOUNDER_EVENTS; i++)
        events[i * PLEX_EVENT_SIZE + PLEX_EVENT_KIND] = PLEX_STEP;
    memset(state, 1, sizeof state);
}

static void carry_out(void)
{
    static const uint8_t expected[] = {1, 0, 5, 0, 6, 0, 7, 0, 3, 0};
    expect("check", plex_check(image, sizeof image, table, sizeof table) == 0);
    expect("fresh",
           plex_fresh(image, sizeof image, table, sizeof table, words, sizeof words, state, sizeof state) == 0);
    expect("run", plex_run(image, sizeof image, table, sizeof table, state, sizeof state, events,
                           EVENTS * PLEX_EVENT_SIZE, answers, EVENTS * PLEX_ANSWER_SIZE) == 0);
    expect("answers", memcmp(answers, expected, sizeof expected) == 0);
    expect("word 0", state[PLEX_STATE_WORDS] == 7 && state[PLEX_STATE_WORDS + 1] == 0);
    expect("walk", plex_walk(image, sizeof image, table, sizeof table, state, sizeof state, 3, met, sizeof met) == 1);
    expect("met", met[0] == 3 && met[1] == PLEX_UNMET && met[PLEX_MET_SIZE - 1] == PLEX_UNMET);
}

void run_afresh(const char *what, const uint8_t *records, size_t size, size_t count, uint8_t code, uint8_t detail)
{
    const uint8_t *last = answers + PLEX_ANSWER_SIZE * (count - 1);
    expect(what, plex_fresh(records, size, table, sizeof table, words, sizeof words, state, sizeof state) == 0 &&
                     plex_run(records, size, table, sizeof table, state, sizeof state, events, PLEX_EVENT_SIZE * count,
                              answers, PLEX_ANSWER_SIZE * count) == 0 &&
                     last[PLEX_ANSWER_CODE] == code && last[PLEX_ANSWER_DETAIL] == detail);
}

/* Label 0: block 0, entry external, SEND JOBTREE to 2, on to 0 again or to 1. Label 1: EXIT. Label 2:
 * EXIT, entry buffered. */
static void fill_founder(uint8_t *founder, uint8_t on_to)
{
    founder[PLEX_RECORD_OPCODE] = PLEX_SEND_TREE;
    founder[PLEX_RECORD_ENTRY] = PLEX_EXTERNAL;
    founder[PLEX_RECORD_A] = 2;
    founder[PLEX_RECORD_B] = on_to;
    founder[PLEX_RECORD_SIZE + PLEX_RECORD_OPCODE] = PLEX_EXIT;
    founder[2 * PLEX_RECORD_SIZE + PLEX_RECORD_OPCODE] = PLEX_EXIT;
    founder[2 * PLEX_RECORD_SIZE + PLEX_RECORD_ENTRY] = PLEX_BUFFERED;
}

/* A signal is held, and becomes a tree at EXIT; a fifth one traps, and all are dropped. */
static void hold_signals(void)
{
    static uint8_t founder[3 * PLEX_RECORD_SIZE];
    const uint8_t *thread = state + PLEX_STATE_THREADS, *tree = state + PLEX_STATE_TREES;
    fill_founder(founder, 1);
    run_afresh("a signal to hold", founder, sizeof founder, 3, PLEX_MOVED_ON, 0);
    expect("held", thread[PLEX_THREAD_HELD_COUNT] == 1 && thread[PLEX_THREAD_HELD + PLEX_SIGNAL_LABEL] == 2);
    run_afresh("an EXIT that founds a tree", founder, sizeof founder, 4, PLEX_EXITED, 0);
    expect("founded", state[PLEX_STATE_TREE_COUNT] == 1 && tree[PLEX_TREE_PENDING] == 1 &&
                          tree[PLEX_TREE_SIGNALS + PLEX_SIGNAL_LABEL] == 2);
    expect("held no more", thread[PLEX_THREAD_HELD_COUNT] == 0 && thread[PLEX_THREAD_HELD + PLEX_SIGNAL_LABEL] == 0);
    fill_founder(founder, 0);
    run_afresh("a fourth signal", founder, sizeof founder, FOUNDER_EVENTS - 1, PLEX_MOVED_ON, 0);
    expect("four held", thread[PLEX_THREAD_HELD_COUNT] == PLEX_HELD_MAX);
    run_afresh("a fifth signal", founder, sizeof founder, FOUNDER_EVENTS, PLEX_TRAPPED, PLEX_HELD_FULL);
    expect("dropped", state[PLEX_STATE_TREE_COUNT] == 0 && thread[PLEX_THREAD_HELD_COUNT] == 0);
}

/* Blocks 0 and 1 are CMX and have one lock; the one is thread 0's, the other thread 1's. Label 0: block 0,
 * entry external, SEND direct to 1. Label 1: block 1, entry direct, EXIT. Label 2: block 1, entry
 * external, EXIT. */
enum { SHARED_LOCK = 9 };
static uint8_t grouped[3 * PLEX_RECORD_SIZE], group_table[PLEX_TABLE_SIZE];

static void fill_group(void)
{
    grouped[PLEX_RECORD_OPCODE] = PLEX_SEND_DIRECT;
    grouped[PLEX_RECORD_ENTRY] = PLEX_EXTERNAL;
    grouped[PLEX_RECORD_A] = 1;
    for (int label = 1; label <= 2; label++) {
        grouped[label * PLEX_RECORD_SIZE + PLEX_RECORD_OPCODE] = PLEX_EXIT;
        grouped[label * PLEX_RECORD_SIZE + PLEX_RECORD_BLOCK] = 1;
        grouped[label * PLEX_RECORD_SIZE + PLEX_RECORD_ENTRY] = label == 1 ? PLEX_DIRECT : PLEX_EXTERNAL;
    }
    for (int block = 0; block <= 1; block++) {
        group_table[block * PLEX_ROW_SIZE + PLEX_ROW_THREAD] = block;
        group_table[block * PLEX_ROW_SIZE + PLEX_ROW_KIND] = PLEX_CMX;
        group_table[block * PLEX_ROW_SIZE + PLEX_ROW_LOCK] = SHARED_LOCK;
    }
}

/* One event, and what it is answered. */
static void run_grouped(uint8_t kind, uint8_t thread, uint8_t label, uint8_t code, uint8_t detail)
{
    uint8_t event[PLEX_EVENT_SIZE] = {0}, answer[PLEX_ANSWER_SIZE];
    event[PLEX_EVENT_KIND] = kind;
    event[PLEX_EVENT_THREAD] = thread;
    event[PLEX_EVENT_SIGNAL + PLEX_SIGNAL_LABEL] = label;
    expect("run of a group", plex_run(grouped, sizeof grouped, group_table, sizeof group_table, state, sizeof state,
                                      event, sizeof event, answer, sizeof answer) == 0);
    expect("answer in a group", answer[PLEX_ANSWER_CODE] == code && answer[PLEX_ANSWER_DETAIL] == detail);
}

/* The job of thread 0 goes from the one block into the other, and thread 1, which wants the other, waits
 * for the lock until that job has ended. */
static void share_lock(void)
{
    const uint8_t *thread = state + PLEX_STATE_THREADS;
    fill_group();
    expect("fresh of a group", plex_fresh(grouped, sizeof grouped, group_table, sizeof group_table, words, sizeof words,
                                          state, sizeof state) == 0);
    run_grouped(PLEX_ARRIVAL, 0, 0, PLEX_ARRIVED, 0);
    run_grouped(PLEX_ARRIVAL, 0, 2, PLEX_ARRIVED, 0);
    run_grouped(PLEX_STEP, 0, 0, PLEX_STARTED, 0);
    run_grouped(PLEX_STEP, 1, 0, PLEX_WAITING, SHARED_LOCK);
    run_grouped(PLEX_STEP, 0, 0, PLEX_MOVED_ON, 0);
    expect("one lock for two blocks", thread[PLEX_THREAD_LABEL] == 1 && thread[PLEX_THREAD_LOCKS] == 0 &&
                                          thread[PLEX_THREAD_LOCKS + 1] == 1 << (SHARED_LOCK - 8));
    run_grouped(PLEX_STEP, 1, 0, PLEX_WAITING, SHARED_LOCK);
    expect("walk to the holder", plex_walk(grouped, sizeof grouped, group_table, sizeof group_table, state,
                                           sizeof state, 1, met, sizeof met) == 2 &&
                                     met[0] == 1 && met[1] == 0);
    run_grouped(PLEX_STEP, 0, 0, PLEX_EXITED, 0);
    run_grouped(PLEX_STEP, 1, 0, PLEX_STARTED, 0);
}

static uint32_t link_behind(const uint8_t *behind, size_t size, size_t out_len)
{
    return plex_link(image, sizeof image, behind, size, table, sizeof table, linked, out_len);
}

static void set_blocks(uint8_t *records, int count, uint8_t block)
{
    for (int i = 0; i < count; i++)
        records[i * PLEX_RECORD_SIZE + PLEX_RECORD_BLOCK] = block;
}

/* The same guest behind itself, in block 1: the label that it uses becomes 3. */
static void link_guests(void)
{
    memcpy(second, image, sizeof image);
    expect("shared block", PLEX_NUMBER(link_behind(second, sizeof second, sizeof linked)) == PLEX_SHARED_BLOCK);
    set_blocks(second, RECORDS, 1);
    expect("output too short",
           PLEX_NUMBER(link_behind(second, sizeof second, sizeof linked - 1)) == PLEX_BAD_OUTPUT_LENGTH);
    expect("link", link_behind(second, sizeof second, sizeof linked) == 0);
    expect("check of the linked image", plex_check(linked, sizeof linked, table, sizeof table) == 0);
    expect("first image", memcmp(linked, image, sizeof image) == 0);
    second[PLEX_RECORD_A] = 3;
    expect("second image", memcmp(linked + sizeof image, second, sizeof second) == 0);
    for (int i = 0; i < MANY; i++)
        exits[i * PLEX_RECORD_SIZE + PLEX_RECORD_OPCODE] = PLEX_EXIT;
    set_blocks(exits, MANY, 1);
    expect("too many records", PLEX_NUMBER(link_behind(exits, sizeof exits, sizeof linked)) == PLEX_TOO_MANY_RECORDS);
    expect("empty second image", PLEX_NUMBER(link_behind(NULL, 0, sizeof linked)) == PLEX_BAD_IMAGE_LENGTH);
}

static void refuse(void)
{
    uint32_t result;
    table[PLEX_ROW_SIZE * 5 + PLEX_ROW_THREAD] = PLEX_THREADS;
    result = plex_check(image, sizeof image, table, sizeof table);
    expect("number", PLEX_NUMBER(result) == PLEX_BAD_TABLE_FIELD);
    expect("place", PLEX_PLACE(result) == 5);
    table[PLEX_ROW_SIZE * 5 + PLEX_ROW_THREAD] = 0;
    table[PLEX_ROW_SIZE * 15 + PLEX_ROW_LOCK] = PLEX_LOCKS;
    result = plex_check(image, sizeof image, table, sizeof table);
    expect("number of a lock", PLEX_NUMBER(result) == PLEX_BAD_TABLE_FIELD);
    expect("place of a lock", PLEX_PLACE(result) == 15);
    table[PLEX_ROW_SIZE * 15 + PLEX_ROW_LOCK] = PLEX_LOCKS - 1;
    expect("the highest lock", plex_check(image, sizeof image, table, sizeof table) == 0);
    result = plex_check(image, sizeof image, table, sizeof table - 1);
    expect("short table", PLEX_NUMBER(result) == PLEX_BAD_TABLE_LENGTH);
    result = plex_check(NULL, 0, table, sizeof table);
    expect("empty image", PLEX_NUMBER(result) == PLEX_BAD_IMAGE_LENGTH);
}

static void versions(void)
{
    unsigned major = 0, minor = 0, patch = 0;
    char after;
    expect("version", sscanf(PLEX_VERSION, "%u.%u.%u%c", &major, &minor, &patch, &after) == 3);
    expect("number of the version", 65536 * major + 256 * minor + patch == PLEX_VERSION_NUMBER);
    expect("version of the library", plex_version() == PLEX_VERSION_NUMBER);
}

int main(void)
{
    versions();
    fill();
    carry_out();
    calculate();
    hold_signals();
    share_lock();
    link_guests();
    refuse();
    return failed;
}
