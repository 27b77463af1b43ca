/* The explanations go with the library's word: on good and damaged bytes, a rule is named exactly
 * where the library refuses, and for no part before that. */
#include "bench_image.h"
#include "build.h"
#include "damage.h"
#include "explain.h"
#include "faults.h"

#include <stdio.h>
#include <string.h>

enum { RECORDS = 128, TRIALS = 40000 };

static uint8_t image[RECORDS * PLEX_RECORD_SIZE], table[PLEX_TABLE_SIZE], state[PLEX_STATE_SIZE];
static uint32_t failures, refused_alone, refusals[PLEX_BAD_OUTPUT_LENGTH + 1],
    link_refusals[PLEX_BAD_OUTPUT_LENGTH + 1];

/* Of a part: it is explained if it is refused, and if not, not. */
static void expect(const char *what, const struct line *why, int is_refused)
{
    if ((why->length != 0) == (is_refused != 0))
        return;
    failures++;
    printf("explanations: a %s is%s refused: '%s'\n", what, is_refused ? "" : " not", why->text);
}

static void try_image(void)
{
    uint8_t tried[sizeof image], tried_table[PLEX_TABLE_SIZE];
    uint32_t edits = below(3);
    memcpy(tried, image, sizeof image);
    memcpy(tried_table, table, sizeof table);
    if (below(8) == 0) {
        uint32_t opcode = any_calculation();
        uint32_t label = find_statement(tried, RECORDS, opcode), fault = below(faults_of(opcode));
        break_calculation(tried, RECORDS, label, (enum calculation_fault)fault);
    }
    for (uint32_t i = 0; i < edits; i++)
        damage_record(tried, RECORDS);
    if (below(16) == 0)
        damage(tried_table, sizeof tried_table);
    uint32_t result = plex_check(tried, sizeof tried, tried_table, sizeof tried_table);
    uint32_t number = PLEX_NUMBER(result), place = PLEX_PLACE(result);
    refusals[number]++;
    for (uint32_t block = 0; block < PLEX_BLOCKS; block++) {
        struct line why = {0};
        explain_row(&why, tried_table, block);
        if (number != PLEX_BAD_TABLE_FIELD || block <= place)
            expect("row", &why, number == PLEX_BAD_TABLE_FIELD && block == place);
    }
    for (uint32_t label = 0; label < RECORDS && number != PLEX_BAD_TABLE_FIELD; label++) {
        struct line why = {0};
        explain_record(&why, tried, RECORDS, label);
        if (number != PLEX_BAD_RECORD || label <= place)
            expect("record", &why, number == PLEX_BAD_RECORD && label == place);
    }
}

/* What is said of a link with this number has to have these words. */
static void expect_words(uint32_t number, const struct line *why, uint32_t spoken_of, const char *words)
{
    if (number != spoken_of || strstr(why->text, words) != NULL)
        return;
    failures++;
    printf("explanations: number %u without '%s': '%s'\n", number, words, why->text);
}

/* Two guests of any length; the second one's blocks begin after the first's, or before their end. */
static void try_link(void)
{
    static uint8_t first[PLEX_RECORDS_MAX * PLEX_RECORD_SIZE], second[sizeof first], linked[2 * sizeof first];
    uint32_t first_records = 32 * (1 + below(16)), second_records = 32 * (1 + below(16));
    size_t size = PLEX_RECORD_SIZE * first_records, second_size = PLEX_RECORD_SIZE * second_records;
    struct line why = {0};
    bench_guest_image(first, first_records, 0);
    bench_guest_image(second, second_records, GUEST_BLOCKS - (below(4) == 0 ? below(GUEST_BLOCKS + 1) : 0));
    make_tree_sends(second, second_records);
    make_calculations(second, second_records);
    if (below(4) == 0)
        damage_record(first, first_records);
    if (below(4) == 0)
        damage_record(second, second_records);
    uint32_t result = plex_link(first, size, second, second_size, table, sizeof table, linked, size + second_size);
    uint32_t number = PLEX_NUMBER(result);
    if (number != PLEX_BAD_RECORD)
        explain_link(&why, first, first_records, second, second_records);
    else if (plex_check(first, size, table, sizeof table) == result)
        explain_record(&why, first, first_records, PLEX_PLACE(result));
    else
        explain_record(&why, second, second_records, PLEX_PLACE(result));
    expect("link", &why, number != 0);
    expect_words(number, &why, PLEX_SHARED_BLOCK, "both have records in block");
    expect_words(number, &why, PLEX_TOO_MANY_RECORDS, "records are");
    link_refusals[number]++;
}

static uint32_t run(uint8_t *tried, const uint8_t *event, size_t size)
{
    uint8_t answer[PLEX_ANSWER_SIZE];
    return plex_run(image, sizeof image, table, sizeof table, tried, PLEX_STATE_SIZE, event, size, answer,
                    size == 0 ? 0 : sizeof answer);
}

/* An arrival at any label, at times beyond the image. */
static void put_any_arrival(uint8_t *event)
{
    static const uint16_t values[PLEX_REGISTERS] = {1, 2, 3};
    uint32_t label = below(RECORDS + 2), count = below(PLEX_REGISTERS + 1);
    put_arrival(event, label, values, (uint8_t)count);
}

/* One event, at times damaged, and then the state that it leaves, damaged. What is said of the state without its image
 * and table is said of no state that is accepted. */
static void try_event(void)
{
    uint8_t event[PLEX_EVENT_SIZE], tried[PLEX_STATE_SIZE];
    struct line why = {0}, state_why = {0}, alone_why = {0};
    if (below(4) == 0)
        put_any_arrival(event);
    else if (below(50) == 0)
        put_cut(event, below(PLEX_THREADS));
    else
        put_step(event, below(PLEX_THREADS));
    if (below(4) == 0)
        damage(event, sizeof event);
    explain_event(&why, image, RECORDS, event);
    uint32_t number = PLEX_NUMBER(run(state, event, sizeof event));
    expect("event", &why, number == PLEX_BAD_EVENT);
    memcpy(tried, state, sizeof tried);
    size_t live = PLEX_STATE_TREES + PLEX_TREE_SIZE * (state[PLEX_STATE_TREE_COUNT] + 1u);
    size_t end = live < sizeof tried ? live : sizeof tried;
    for (uint32_t edits = below(3); edits > 0; edits--)
        damage(tried + PLEX_STATE_THREADS, end - PLEX_STATE_THREADS);
    refusals[number]++;
    number = PLEX_NUMBER(run(tried, event, 0));
    explain_state(&state_why, image, RECORDS, table, tried);
    expect("state", &state_why, number == PLEX_BAD_STATE);
    explain_state_alone(&alone_why, tried);
    if (alone_why.length != 0)
        expect("state alone", &alone_why, number == PLEX_BAD_STATE);
    refused_alone += alone_why.length != 0;
    refusals[number]++;
}

/* Each calculation is in the image. Each block is on a thread of its own as far as they go, every third block FD, and
 * one lock is for blocks 0 and 1, one for 2 and 3, and so on. */
static void begin(void)
{
    static const uint8_t words[PLEX_WORDS_SIZE];
    bench_mixed_image(image, RECORDS);
    make_tree_sends(image, RECORDS);
    make_calculations(image, RECORDS);
    for (uint32_t opcode = FIRST_CALCULATION; opcode <= LAST_CALCULATION; opcode++)
        failures += find_statement(image, RECORDS, opcode) == 0;
    for (uint32_t block = 0; block < PLEX_BLOCKS; block++)
        put_row(table, block, block % PLEX_THREADS, block % 3 == 0 ? PLEX_FD : PLEX_CMX, PLEX_LOCKS - 1 - block / 2);
    if (plex_fresh(image, sizeof image, table, sizeof table, words, sizeof words, state, sizeof state) != 0)
        failures++;
}

int main(void)
{
    begin();
    failures += try_faults();
    for (uint32_t trial = 0; trial < TRIALS; trial++) {
        try_event();
        if (trial % 16 == 0)
            try_image();
        if (trial % 64 == 0)
            try_link();
    }
    printf("explanations: refused images %u, tables %u, events %u, states %u, %u of them without image and table; "
           "links by a record %u, by a block %u, by "
           "their record count %u; %u failures\n",
           refusals[PLEX_BAD_RECORD], refusals[PLEX_BAD_TABLE_FIELD], refusals[PLEX_BAD_EVENT],
           refusals[PLEX_BAD_STATE], refused_alone, link_refusals[PLEX_BAD_RECORD], link_refusals[PLEX_SHARED_BLOCK],
           link_refusals[PLEX_TOO_MANY_RECORDS], failures);
    return failures != 0 || refused_alone == 0 || refusals[PLEX_BAD_RECORD] == 0 ||
           refusals[PLEX_BAD_TABLE_FIELD] == 0 || refusals[PLEX_BAD_EVENT] == 0 || refusals[PLEX_BAD_STATE] == 0 ||
           link_refusals[PLEX_BAD_RECORD] == 0 || link_refusals[PLEX_SHARED_BLOCK] == 0 ||
           link_refusals[PLEX_TOO_MANY_RECORDS] == 0;
}
