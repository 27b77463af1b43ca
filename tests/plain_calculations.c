#include "plain_calculations.h"
#include "build.h"
#include "damage.h"
#include "plain_both.h"
#include "plain_sights.h"

#include <stdio.h>

enum { TRIALS = 20000, RECORDS = 2, EVENTS = 2 };

/* Label 0 is a calculation, label 1 EXIT. */
static uint8_t image[RECORDS * PLEX_RECORD_SIZE], table[PLEX_TABLE_SIZE], words[PLEX_WORDS_SIZE];
static uint8_t events[EVENTS * PLEX_EVENT_SIZE];
static struct both both = {{image, table}, RECORDS, words, events, EVENTS, 0};

static uint32_t refused, divisions[DIVISIONS], decimals[DECIMALS];

/* Small, at a limit of packed decimal, or any. */
static uint32_t any_value(void)
{
    uint32_t sort = below(4);
    return sort == 0 ? below(3) : sort == 1 ? below(65536) : decimal_number();
}

/* In any block, with any words. */
static void make_machine(void)
{
    struct statement program[RECORDS] = {{0, PLEX_EXTERNAL, PLEX_SKIP, 0, 1, 0, 0, {NUMBER(0)}},
                                         {0, PLEX_NO_ENTRY, PLEX_EXIT, 0, 0, 0, 0, {NUMBER(0)}}};
    program[0].block = program[1].block = (uint8_t)below(PLEX_BLOCKS);
    put_statements(image, program, RECORDS);
    make_calculation(image);
    make_table(table);
    for (uint32_t i = 0; i < PLEX_WORDS_SIZE; i += 2)
        put16(words + i, any_value());
    fresh_both(&both);
}

static void count_sights(uint32_t thread)
{
    uint32_t division = next_division(&both.machine, by_plex.state, thread);
    uint64_t decimal = next_decimal(&both.machine, by_plex.state, thread);
    for (uint32_t sight = 0; sight < DIVISIONS; sight++)
        divisions[sight] += division >> sight & 1;
    for (uint32_t sight = 0; sight < DECIMALS; sight++)
        decimals[sight] += decimal >> sight & 1;
}

/* A job with few registers is started; then it calculates, and ends if it has not trapped. */
static void try_calculation(void)
{
    uint16_t values[3];
    make_machine();
    uint32_t thread = row_at(table, image[PLEX_RECORD_BLOCK])[PLEX_ROW_THREAD];
    for (uint32_t i = 0; i < 3; i++)
        values[i] = (uint16_t)any_value();
    put_arrival(events, 0, values, (uint8_t)below(4));
    put_step(events + PLEX_EVENT_SIZE, thread);
    bool is_started = run_both(&both) == 0;
    if (is_started)
        count_sights(thread);
    put_step(events, thread);
    refused += !is_started || run_both(&both) != 0;
}

bool do_calculations_agree(void)
{
    for (uint32_t trial = 0; trial < TRIALS; trial++)
        try_calculation();
    bool all_met = are_all_met(divisions, 0, DIVISIONS - 1) && are_all_met(decimals, 0, DECIMALS - 1);
    printf("plain: %d calculations%s; %u failures\n", TRIALS, all_met ? ", with every case" : ", NOT with every case",
           both.differences + refused);
    return both.differences + refused == 0 && all_met;
}
