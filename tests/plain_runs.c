#include "plain_runs.h"
#include "bench_image.h"
#include "build.h"
#include "damage.h"
#include "plain_both.h"
#include "plain_sights.h"

#include <stdio.h>
#include <string.h>

enum { MACHINES = 400, RUNS = 30, LEAST_RECORDS = 16 };

static uint8_t image[PLEX_RECORDS_MAX * PLEX_RECORD_SIZE], table[PLEX_TABLE_SIZE], words[PLEX_WORDS_SIZE];
static uint8_t events[MOST_EVENTS * PLEX_EVENT_SIZE];
static struct both both = {{image, table}, 0, words, events, 0, 0};

static uint32_t codes[256], reasons[256], losing_exits, group_jobs, refused_events;

/* Steps that are their thread's first event in a run, by what they subtract. */
static uint32_t subtractions[SUBTRACTIONS];

/* Walks over states that this part alone was changed in. */
static uint32_t refused_parts[DAMAGED_PARTS], accepted_parts[DAMAGED_PARTS];

/* Of most images, registers are words: their jobs come further than others, which soon read an
 * absent register. */
static void fill_registers(void)
{
    for (uint32_t label = 0; label < both.records; label++) {
        uint8_t *record = image + PLEX_RECORD_SIZE * label;
        for (uint32_t i = 0; i < record[PLEX_RECORD_COUNT]; i++) {
            uint8_t *operand = record + PLEX_RECORD_OPERANDS + PLEX_OPERAND_SIZE * i;
            if (operand[PLEX_OPERAND_KIND] == PLEX_REGISTER_OPERAND) {
                operand[PLEX_OPERAND_KIND] = PLEX_WORD_OPERAND;
                put16(operand + PLEX_OPERAND_VALUE, get16(operand + PLEX_OPERAND_VALUE) % PLEX_BLOCK_WORDS);
            }
        }
    }
}

/* One subtraction in four has p, its second operand, for q, its third. */
static void make_equal_operands(void)
{
    for (uint32_t label = 0; label < both.records; label++) {
        uint8_t *record = image + PLEX_RECORD_SIZE * label, *p = record + PLEX_RECORD_OPERANDS + PLEX_OPERAND_SIZE;
        if (record[PLEX_RECORD_OPCODE] == PLEX_ASSIGN && record[PLEX_RECORD_OPERATOR] == PLEX_SUBTRACT && below(4) == 0)
            memcpy(p + PLEX_OPERAND_SIZE, p, PLEX_OPERAND_SIZE);
    }
}

/* Any words; or small ones, which are zero and equal at times, and whose differences are near zero; or decimal ones. */
static void make_words(void)
{
    uint32_t sort = below(3);
    for (uint32_t i = 0; i < PLEX_WORDS_SIZE; i += 2)
        put16(words + i, sort == 0 ? below(65536) : sort == 1 ? below(4) : decimal_number());
}

static void make_machine(void)
{
    both.records = LEAST_RECORDS * (1 + below(PLEX_RECORDS_MAX / LEAST_RECORDS));
    bench_mixed_image(image, both.records);
    make_tree_sends(image, both.records);
    if (below(4) != 0)
        fill_registers();
    make_calculations(image, both.records);
    make_equal_operands();
    make_table(table);
    make_words();
    fresh_both(&both);
}

/* An arrival at a label of entry external, from any label on. */
static void put_any_arrival(uint8_t *event)
{
    static const uint16_t values[PLEX_REGISTERS] = {1, 2, 3, 65535, 5};
    uint32_t label = below(both.records);
    while (record_at(image, label)[PLEX_RECORD_ENTRY] != PLEX_EXTERNAL)
        label = (label + 1) % both.records;
    put_arrival(event, label, values, (uint8_t)below(PLEX_REGISTERS + 1));
}

static void make_events(void)
{
    both.event_count = below(MOST_EVENTS + 1);
    for (uint32_t i = 0; i < both.event_count; i++) {
        uint8_t *event = events + PLEX_EVENT_SIZE * i;
        if (below(8) == 0)
            put_any_arrival(event);
        else if (below(64) == 0)
            put_cut(event, below(PLEX_THREADS));
        else
            put_step(event, below(PLEX_THREADS));
    }
    if (below(16) == 0 && both.event_count != 0)
        damage(events, PLEX_EVENT_SIZE * both.event_count);
}

static void count_answers(void)
{
    for (uint32_t i = 0; i < both.event_count; i++) {
        const uint8_t *answer = by_plex.answers + PLEX_ANSWER_SIZE * i;
        uint32_t code = answer[PLEX_ANSWER_CODE], detail = answer[PLEX_ANSWER_DETAIL];
        codes[code]++;
        if (code == PLEX_TRAPPED)
            reasons[detail]++;
        losing_exits += code == PLEX_EXITED && detail != 0;
    }
}

/* A thread's p and q are in its registers and in a block whose lock it holds: until its first event, what others
 * do leaves them as they were before the run. */
static void count_first_steps(const uint8_t *before)
{
    uint32_t threads_met = 0;
    for (uint32_t i = 0; i < both.event_count; i++) {
        const uint8_t *event = events + PLEX_EVENT_SIZE * i;
        uint32_t kind = event[PLEX_EVENT_KIND], thread = event[PLEX_EVENT_THREAD];
        if (kind == PLEX_STEP && !(threads_met >> thread & 1))
            subtractions[next_subtraction(&both.machine, before, thread)]++;
        if (kind != PLEX_ARRIVAL)
            threads_met |= 1u << thread;
    }
}

static void try_run(void)
{
    make_events();
    struct altered before = by_plex;
    uint32_t result = run_both(&both);
    refused_events += PLEX_NUMBER(result) == PLEX_BAD_EVENT;
    if (result == 0) {
        count_answers();
        count_first_steps(before.state);
    }
    group_jobs += is_job_twice_in_group(&both.machine, by_plex.state);
}

/* The walk over the state that the run left, at times damaged. */
static void try_walk(void)
{
    struct altered before = by_plex;
    enum damaged_part part = damage_state(&both.machine, by_plex.state);
    memcpy(by_plain.state, by_plex.state, PLEX_STATE_SIZE);
    uint32_t number = PLEX_NUMBER(walk_both(&both, below(PLEX_THREADS)));
    if (memcmp(by_plex.state, before.state, PLEX_STATE_SIZE) != 0) {
        refused_parts[part] += number == PLEX_BAD_STATE;
        accepted_parts[part] += number == 0;
    }
    memcpy(by_plex.state, before.state, PLEX_STATE_SIZE);
    memcpy(by_plain.state, before.state, PLEX_STATE_SIZE);
}

bool do_runs_agree(void)
{
    for (uint32_t i = 0; i < MACHINES; i++) {
        make_machine();
        for (uint32_t run = 0; run < RUNS; run++) {
            try_run();
            try_walk();
        }
    }
    bool all_met = are_all_met(codes, PLEX_ARRIVED, PLEX_NOTHING_TO_CUT) &&
                   are_all_met(reasons, PLEX_ABSENT_REGISTER, PLEX_NOT_DECIMAL) &&
                   are_all_met(subtractions, P_ABOVE_Q, ABSENT_BELOW_Q) && losing_exits != 0 && group_jobs != 0 &&
                   refused_events != 0 && are_all_met(refused_parts, HELD_SIGNALS, ANY_BYTES) &&
                   are_all_met(accepted_parts, HELD_SIGNALS, ANY_BYTES);
    printf("plain: %d runs and walks%s; %u failures\n", MACHINES * RUNS,
           all_met ? ", with every case" : ", NOT with every case", both.differences);
    return both.differences == 0 && all_met;
}
