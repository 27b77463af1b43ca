/* The one-by-one reading, worked on two threads and a group of two blocks that have one lock: an event
 * list is carried out, the second order is made from its events and answers, and the second order is
 * carried out on a fresh machine. Both have to leave the same state bytes, and each event to get the
 * same answer. */
#include "build.h"
#include "words.h"

#include <stdio.h>
#include <string.h>

enum { RECORDS = 8, EVENTS = 19, COUNTER = 4, ASKER = 5, DISPLAY = 6, GROUP_LOCK = 9 };

/* Block 4, thread 0: adds what it is sent to its word, and goes on in block 6, which shows that word in
 * its own and tells it to a caller. With one lock for both, nobody is told a sum that is out of date.
 * Block 5, thread 1: asks block 6 and keeps what it is told. */
static const struct statement program[RECORDS] = {
    {COUNTER, PLEX_EXTERNAL, PLEX_ASSIGN, PLEX_ADD, 1, 0, 3, {WORD(0), WORD(0), REGISTER(0)}},
    {COUNTER, PLEX_NO_ENTRY, PLEX_SEND_DIRECT, 0, 2, 0, 1, {WORD(0)}},
    {DISPLAY, PLEX_DIRECT, PLEX_ASSIGN, PLEX_COPY, 3, 0, 2, {WORD(0), REGISTER(0)}},
    {DISPLAY, PLEX_NO_ENTRY, PLEX_EXIT, 0, 0, 0, 0, {NUMBER(0)}},
    {DISPLAY, PLEX_DIRECT, PLEX_RETURN, 0, 0, 0, 1, {WORD(0)}},
    {ASKER, PLEX_EXTERNAL, PLEX_CALL, 0, 4, 6, 0, {NUMBER(0)}},
    {ASKER, PLEX_NO_ENTRY, PLEX_ASSIGN, PLEX_COPY, 7, 0, 2, {WORD(0), REGISTER(0)}},
    {ASKER, PLEX_NO_ENTRY, PLEX_EXIT, 0, 0, 0, 0, {NUMBER(0)}},
};

static const uint8_t words[PLEX_WORDS_SIZE];
static uint8_t image[RECORDS * PLEX_RECORD_SIZE], table[PLEX_TABLE_SIZE];

/* An event list with its answers, and the number that each event has in the first order. */
struct list {
    uint8_t events[EVENTS * PLEX_EVENT_SIZE], answers[EVENTS * PLEX_ANSWER_SIZE];
    uint32_t numbers[EVENTS], count;
};

/* Block 9 gets the lock that block 4 leaves, so that the group's lock guards no other block. */
static void make_machine(void)
{
    put_statements(image, program, RECORDS);
    put_lone_rows(table);
    put_row(table, GROUP_LOCK, 0, PLEX_FD, COUNTER);
    put_row(table, COUNTER, 0, PLEX_CMX, GROUP_LOCK);
    put_row(table, ASKER, 1, PLEX_CMX, ASKER);
    put_row(table, DISPLAY, 0, PLEX_CMX, GROUP_LOCK);
}

static void print_bytes(const struct line *line, const uint8_t *bytes, uint32_t size)
{
    printf("%-48s", line->text);
    for (uint32_t i = 0; i < size; i++)
        printf(" %02x", bytes[i]);
    printf("\n");
}

/* The rows of the blocks that have records, and the records. */
static void print_machine(void)
{
    for (uint32_t block = COUNTER; block <= DISPLAY; block++) {
        const uint8_t *row = row_at(table, block);
        struct line line = {0};
        add(&line, "block %u: ", block);
        add_row(&line, row);
        print_bytes(&line, row, PLEX_ROW_SIZE);
    }
    for (uint32_t label = 0; label < RECORDS; label++) {
        struct line line = {0};
        add(&line, "label %u, block %u: ", label, program[label].block);
        add_statement(&line, record_at(image, label));
        print_bytes(&line, record_at(image, label), PLEX_RECORD_OPERANDS + PLEX_OPERAND_SIZE * program[label].count);
    }
}

static void make_events(struct list *list)
{
    static const uint16_t five = 5, nine = 9;
    static const uint8_t stepped[] = {1, 0, 1, 0, 0, 1, 0, 0, 1, 1, 0};
    uint8_t *event = list->events;
    put_arrival(event, 0, &five, 1);
    put_arrival(event += PLEX_EVENT_SIZE, 5, NULL, 0);
    for (size_t i = 0; i < sizeof stepped; i++)
        put_step(event += PLEX_EVENT_SIZE, stepped[i]);
    put_arrival(event += PLEX_EVENT_SIZE, 0, &nine, 1);
    put_step(event += PLEX_EVENT_SIZE, 0);
    put_step(event += PLEX_EVENT_SIZE, 1);
    put_step(event += PLEX_EVENT_SIZE, 1);
    put_step(event += PLEX_EVENT_SIZE, 0);
    put_cut(event += PLEX_EVENT_SIZE, 2);
    for (list->count = 0; list->count < EVENTS; list->count++)
        list->numbers[list->count] = list->count;
}

static int carry_out(struct list *list, uint8_t *state)
{
    return plex_fresh(image, sizeof image, table, sizeof table, words, sizeof words, state, PLEX_STATE_SIZE) == 0 &&
           plex_run(image, sizeof image, table, sizeof table, state, PLEX_STATE_SIZE, list->events,
                    PLEX_EVENT_SIZE * list->count, list->answers, PLEX_ANSWER_SIZE * list->count) == 0;
}

static void print_list(const char *name, const struct list *list)
{
    struct groups groups = find_groups(image, RECORDS, table);
    printf("%s\n", name);
    for (uint32_t i = 0; i < list->count; i++) {
        struct line event = {0}, answer = {0};
        const uint8_t *answered = list->answers + PLEX_ANSWER_SIZE * i;
        add_event(&event, list->events + PLEX_EVENT_SIZE * i);
        add_answer(&answer, answered, &groups);
        printf("%4u  %-20s %02x %02x  %s\n", list->numbers[i], event.text, answered[PLEX_ANSWER_CODE],
               answered[PLEX_ANSWER_DETAIL], answer.text);
    }
}

/* Writes event i of one list to the end of another, with its number. */
static void write_out(struct list *to, const struct list *from, uint32_t i)
{
    memcpy(to->events + PLEX_EVENT_SIZE * to->count, from->events + PLEX_EVENT_SIZE * i, PLEX_EVENT_SIZE);
    to->numbers[to->count++] = i;
}

struct row {
    uint32_t events[EVENTS], count;
};

static void write_row(struct list *to, const struct list *from, struct row *row)
{
    for (uint32_t i = 0; i < row->count; i++)
        write_out(to, from, row->events[i]);
    row->count = 0;
}

/* The second order, from the events and their answers and from nothing else. */
static void make_second_order(struct list *second, const struct list *first)
{
    struct row rows[PLEX_THREADS] = {{{0}, 0}};
    second->count = 0;
    for (uint32_t i = 0; i < first->count; i++) {
        struct row *row = &rows[first->events[PLEX_EVENT_SIZE * i + PLEX_EVENT_THREAD]];
        uint32_t code = first->answers[PLEX_ANSWER_SIZE * i + PLEX_ANSWER_CODE];
        if (code == PLEX_NO_WORK || code == PLEX_WAITING || code == PLEX_NOTHING_TO_CUT)
            continue;
        if (code == PLEX_ARRIVED || code == PLEX_LIST_FULL) {
            write_out(second, first, i);
            continue;
        }
        row->events[row->count++] = i;
        if (code == PLEX_EXITED || code == PLEX_TRAPPED || code == PLEX_WAS_CUT)
            write_row(second, first, row);
    }
    for (uint32_t t = 0; t < PLEX_THREADS; t++)
        write_row(second, first, &rows[t]);
}

static int same_answers(const struct list *first, const struct list *second)
{
    int same = 1;
    for (uint32_t i = 0; i < second->count; i++)
        same &= memcmp(second->answers + PLEX_ANSWER_SIZE * i, first->answers + PLEX_ANSWER_SIZE * second->numbers[i],
                       PLEX_ANSWER_SIZE) == 0;
    return same;
}

int main(void)
{
    static struct list first, second;
    static uint8_t left[PLEX_STATE_SIZE], left_again[PLEX_STATE_SIZE];
    make_machine();
    print_machine();
    make_events(&first);
    if (!carry_out(&first, left))
        return 1;
    print_list("the event list", &first);
    make_second_order(&second, &first);
    if (!carry_out(&second, left_again))
        return 1;
    print_list("the second order", &second);
    int same_state = memcmp(left, left_again, sizeof left) == 0, answered = same_answers(&first, &second);
    printf("the state bytes are %s, the answers are %s\n", same_state ? "the same" : "OTHERS",
           answered ? "the same" : "OTHERS");
    for (uint32_t block = COUNTER; block <= DISPLAY; block++)
        printf("word 0 of block %u is %u\n", block, get16(word_at(left, block, 0)));
    return !same_state || !answered;
}
