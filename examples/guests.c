/* Two guests linked: the events of each are carried out on its own image and on the linked one, from
 * the same initial words. Answers and words have to be the same, and so has the state once its labels
 * are moved as linking moves those of the image: not for the first guest, and by the first's record
 * count for the second. */
#include "build.h"
#include "words.h"

#include <stdio.h>
#include <string.h>

enum { METER = 4, DESK = 6, LEDGER = 7 };
enum { FIRST_RECORDS = 3, SECOND_RECORDS = 7, LINKED_RECORDS = FIRST_RECORDS + SECOND_RECORDS, EVENTS = 8 };

/* Block 4, thread 0: adds what it is sent to its word until that is 10 or more. */
static const struct statement first_program[FIRST_RECORDS] = {
    {METER, PLEX_EXTERNAL, PLEX_ASSIGN, PLEX_ADD, 1, 0, 3, {WORD(0), WORD(0), REGISTER(0)}},
    {METER, PLEX_NO_ENTRY, PLEX_IF, PLEX_LESS, 0, 2, 2, {WORD(0), NUMBER(10)}},
    {METER, PLEX_NO_ENTRY, PLEX_EXIT, 0, 0, 0, 0, {NUMBER(0)}},
};

/* Block 6, thread 1: leaves a signal in its tree, holds one for a new tree, and calls block 7, thread
 * 2, which adds up. */
static const struct statement second_program[SECOND_RECORDS] = {
    {DESK, PLEX_EXTERNAL, PLEX_SEND_BUFFERED, 0, 6, 1, 1, {REGISTER(0)}},
    {DESK, PLEX_NO_ENTRY, PLEX_SEND_TREE, 0, 6, 2, 0, {NUMBER(0)}},
    {DESK, PLEX_NO_ENTRY, PLEX_CALL, 0, 4, 3, 1, {REGISTER(0)}},
    {DESK, PLEX_NO_ENTRY, PLEX_EXIT, 0, 0, 0, 0, {NUMBER(0)}},
    {LEDGER, PLEX_DIRECT, PLEX_ASSIGN, PLEX_ADD, 5, 0, 3, {WORD(0), WORD(0), REGISTER(0)}},
    {LEDGER, PLEX_NO_ENTRY, PLEX_RETURN, 0, 0, 0, 0, {NUMBER(0)}},
    {LEDGER, PLEX_BUFFERED, PLEX_EXIT, 0, 0, 0, 0, {NUMBER(0)}},
};

static const uint8_t words[PLEX_WORDS_SIZE];
static uint8_t first[FIRST_RECORDS * PLEX_RECORD_SIZE], second[SECOND_RECORDS * PLEX_RECORD_SIZE];
static uint8_t table[PLEX_TABLE_SIZE], linked[sizeof first + sizeof second];

/* Events, and what they give on an image. */
struct run {
    uint8_t events[EVENTS * PLEX_EVENT_SIZE], answers[EVENTS * PLEX_ANSWER_SIZE], state[PLEX_STATE_SIZE];
};

/* Every block has a lock of its own. */
static void make_guests(void)
{
    put_statements(first, first_program, FIRST_RECORDS);
    put_statements(second, second_program, SECOND_RECORDS);
    put_lone_rows(table);
    put_row(table, DESK, 1, PLEX_CMX, DESK);
    put_row(table, LEDGER, 2, PLEX_CMX, LEDGER);
}

static void make_first_events(uint8_t *event)
{
    static const uint16_t four = 4;
    put_arrival(event, 0, &four, 1);
    for (int i = 0; i < 5; i++)
        put_step(event += PLEX_EVENT_SIZE, 0);
    put_cut(event += PLEX_EVENT_SIZE, 0);
    put_step(event += PLEX_EVENT_SIZE, 0);
}

/* They leave a job at work inside its call, with a signal held, and signals pending in two trees. */
static void make_second_events(uint8_t *event)
{
    static const uint16_t nine = 9, one = 1;
    put_arrival(event, 0, &nine, 1);
    for (int i = 0; i < 5; i++)
        put_step(event += PLEX_EVENT_SIZE, 1);
    put_arrival(event += PLEX_EVENT_SIZE, 0, &one, 1);
    put_step(event += PLEX_EVENT_SIZE, 2);
}

static void move_label(uint8_t *label, uint32_t by)
{
    put16(label, get16(label) + by);
}

static void move_events(uint8_t *events, uint32_t by)
{
    for (uint8_t *event = events; event < events + EVENTS * PLEX_EVENT_SIZE; event += PLEX_EVENT_SIZE)
        if (event[PLEX_EVENT_KIND] == PLEX_ARRIVAL)
            move_label(event + PLEX_EVENT_SIGNAL + PLEX_SIGNAL_LABEL, by);
}

static void move_signals(uint8_t *signal, uint32_t count, uint32_t by)
{
    for (uint32_t i = 0; i < count; i++, signal += PLEX_SIGNAL_SIZE)
        move_label(signal + PLEX_SIGNAL_LABEL, by);
}

/* The labels of running threads, their return labels, and the labels of held and pending signals. */
static void move_state(uint8_t *state, uint32_t by)
{
    for (uint32_t t = 0; t < PLEX_THREADS; t++) {
        uint8_t *thread = state + PLEX_STATE_THREADS + PLEX_THREAD_SIZE * t;
        if (get16(thread + PLEX_THREAD_LABEL) != PLEX_IDLE)
            move_label(thread + PLEX_THREAD_LABEL, by);
        for (uint32_t i = 0; i < thread[PLEX_THREAD_RETURN_COUNT]; i++)
            move_label(thread + PLEX_THREAD_RETURNS + 2 * i, by);
        move_signals(thread + PLEX_THREAD_HELD, thread[PLEX_THREAD_HELD_COUNT], by);
    }
    for (uint32_t i = 0; i < state[PLEX_STATE_TREE_COUNT]; i++) {
        uint8_t *tree = state + PLEX_STATE_TREES + PLEX_TREE_SIZE * i;
        move_signals(tree + PLEX_TREE_SIGNALS, tree[PLEX_TREE_PENDING], by);
    }
}

/* Whether a call was accepted; a line if not. */
static int is_accepted(const char *call, const char *where, uint32_t result)
{
    if (result != 0)
        printf("%s, %s: refused with number %u, place %u\n", call, where, PLEX_NUMBER(result), PLEX_PLACE(result));
    return result == 0;
}

static int carry_out(struct run *run, const char *where, const uint8_t *image, size_t size)
{
    return is_accepted(
               "fresh", where,
               plex_fresh(image, size, table, sizeof table, words, sizeof words, run->state, PLEX_STATE_SIZE)) &&
           is_accepted("run", where,
                       plex_run(image, size, table, sizeof table, run->state, PLEX_STATE_SIZE, run->events,
                                sizeof run->events, run->answers, sizeof run->answers));
}

static void print_events(const struct run *alone, const struct run *both)
{
    struct groups groups = find_groups(linked, LINKED_RECORDS, table);
    for (uint32_t i = 0; i < EVENTS; i++) {
        const uint8_t *answer = both->answers + PLEX_ANSWER_SIZE * i;
        struct line event = {0}, moved = {0}, answered = {0};
        add_event(&event, alone->events + PLEX_EVENT_SIZE * i);
        add_event(&moved, both->events + PLEX_EVENT_SIZE * i);
        add_answer(&answered, answer, &groups);
        printf("%4u  %-20s  %-20s  %02x %02x  %s\n", i, event.text, moved.text, answer[PLEX_ANSWER_CODE],
               answer[PLEX_ANSWER_DETAIL], answered.text);
    }
}

/* Running threads, pending signals, and the words that are not 0. */
static void print_state(const char *where, const uint8_t *state)
{
    for (uint32_t t = 0; t < PLEX_THREADS; t++) {
        struct line line = {0};
        add_thread(&line, thread_at(state, t));
        if (get16(thread_at(state, t) + PLEX_THREAD_LABEL) != PLEX_IDLE)
            printf("%s: thread %u %s\n", where, t, line.text);
    }
    for (uint32_t i = 0; i < state[PLEX_STATE_TREE_COUNT]; i++)
        for (uint32_t j = 0; j < tree_at(state, i)[PLEX_TREE_PENDING]; j++) {
            struct line line = {0};
            add_signal(&line, signal_at(tree_at(state, i), j));
            printf("%s: tree %u, pending %s\n", where, i, line.text);
        }
    for (uint32_t block = 0; block < PLEX_BLOCKS; block++)
        for (uint32_t word = 0; word < PLEX_BLOCK_WORDS; word++)
            if (get16(word_at(state, block, word)) != 0)
                printf("%s: word %u of block %u is %u\n", where, word, block, get16(word_at(state, block, word)));
}

static int is_same(const char *what, const uint8_t *alone, const uint8_t *both, size_t size)
{
    int same = memcmp(alone, both, size) == 0;
    printf("%s: %s\n", what, same ? "the same" : "OTHERS");
    return same;
}

/* Whether a guest, whose labels linking moved so far, has on the linked image what it has alone. */
static int try_guest(const char *name, const uint8_t *image, size_t size, void (*make_events)(uint8_t *), uint32_t by)
{
    static struct run alone, both;
    make_events(alone.events);
    make_events(both.events);
    move_events(both.events, by);
    if (!carry_out(&alone, "alone", image, size) || !carry_out(&both, "linked", linked, sizeof linked))
        return 0;
    printf("%s, alone and linked (labels + %u)\n", name, by);
    print_events(&alone, &both);
    print_state("alone", alone.state);
    print_state("linked", both.state);
    int same = is_same("answers", alone.answers, both.answers, sizeof alone.answers);
    same &= is_same("words", alone.state, both.state, PLEX_WORDS_SIZE);
    move_state(alone.state, by);
    return is_same("state, its labels moved", alone.state, both.state, PLEX_STATE_SIZE) && same;
}

int main(void)
{
    make_guests();
    if (!is_accepted("link", "both guests",
                     plex_link(first, sizeof first, second, sizeof second, table, sizeof table, linked, sizeof linked)))
        return 1;
    for (uint32_t label = 0; label < LINKED_RECORDS; label++) {
        struct line line = {0};
        add_record(&line, linked, label);
        printf("%s\n", line.text);
    }
    int first_same = try_guest("the first guest", first, sizeof first, make_first_events, 0);
    int second_same = try_guest("the second guest", second, sizeof second, make_second_events, FIRST_RECORDS);
    return !first_same || !second_same;
}
