#include "case.h"
#include "build.h"

#include <string.h>

/* North's guest calls North's charging, which calls the tariffs; these two blocks have one lock, so the
 * second call takes no other. The tariffs want the price of a pulse in register 1, and nobody has sent
 * it. South's guest does RETURN, and nobody has called it. The audit calls North's charging to read the
 * charge. */
static const struct statement program[CASE_RECORDS] = {
    {NORTH_GUEST, PLEX_EXTERNAL, PLEX_CALL, 0, 3, 1, 1, {REGISTER(0)}},
    {NORTH_GUEST, PLEX_NO_ENTRY, PLEX_ASSIGN, PLEX_ADD, 2, 0, 3, {WORD(0), WORD(0), NUMBER(1)}},
    {NORTH_GUEST, PLEX_NO_ENTRY, PLEX_EXIT, 0, 0, 0, 0, {NUMBER(0)}},
    {NORTH_CHARGING, PLEX_DIRECT, PLEX_CALL, 0, 6, 4, 1, {REGISTER(0)}},
    {NORTH_CHARGING, PLEX_NO_ENTRY, PLEX_ASSIGN, PLEX_ADD, 5, 0, 3, {WORD(0), WORD(0), REGISTER(0)}},
    {NORTH_CHARGING, PLEX_NO_ENTRY, PLEX_RETURN, 0, 0, 0, 0, {NUMBER(0)}},
    {TARIFFS, PLEX_DIRECT, PLEX_ASSIGN, PLEX_MULTIPLY, 7, 0, 3, {REGISTER(0), REGISTER(0), REGISTER(1)}},
    {TARIFFS, PLEX_NO_ENTRY, PLEX_RETURN, 0, 0, 0, 1, {REGISTER(0)}},
    {SOUTH_GUEST, PLEX_EXTERNAL, PLEX_RETURN, 0, 0, 0, 1, {REGISTER(0)}},
    {AUDIT, PLEX_EXTERNAL, PLEX_CALL, 0, 12, 10, 0, {NUMBER(0)}},
    {AUDIT, PLEX_NO_ENTRY, PLEX_ASSIGN, PLEX_COPY, 11, 0, 2, {WORD(0), REGISTER(0)}},
    {AUDIT, PLEX_NO_ENTRY, PLEX_EXIT, 0, 0, 0, 0, {NUMBER(0)}},
    {NORTH_CHARGING, PLEX_DIRECT, PLEX_RETURN, 0, 0, 0, 1, {WORD(0)}},
};

/* East's guest adds up what it is sent. Its ledger keeps the sum, in a job of a tree of its own. Its
 * charging takes what it is sent from a prepaid subscriber's balance. Its tariff is sent pulses, and how
 * many a unit has: it adds those that it has kept, counts the units, and keeps the pulses left. Its meter is
 * sent a subscriber's counter, packed: it adds it to its own, and its pulses to those that are to be charged. */
static const struct statement east_program[EAST_RECORDS] = {
    {EAST_GUEST, PLEX_EXTERNAL, PLEX_ASSIGN, PLEX_ADD, 1, 0, 3, {WORD(0), WORD(0), REGISTER(0)}},
    {EAST_GUEST, PLEX_NO_ENTRY, PLEX_SEND_TREE, 0, 3, 2, 1, {WORD(0)}},
    {EAST_GUEST, PLEX_NO_ENTRY, PLEX_EXIT, 0, 0, 0, 0, {NUMBER(0)}},
    {EAST_LEDGER, PLEX_BUFFERED, PLEX_ASSIGN, PLEX_COPY, 4, 0, 2, {WORD(0), REGISTER(0)}},
    {EAST_LEDGER, PLEX_NO_ENTRY, PLEX_EXIT, 0, 0, 0, 0, {NUMBER(0)}},
    {EAST_CHARGING, PLEX_EXTERNAL, PLEX_ASSIGN, PLEX_SUBTRACT, 6, 0, 3, {WORD(0), WORD(0), REGISTER(0)}},
    {EAST_CHARGING, PLEX_NO_ENTRY, PLEX_EXIT, 0, 0, 0, 0, {NUMBER(0)}},
    {EAST_TARIFF, PLEX_EXTERNAL, PLEX_ASSIGN, PLEX_ADD, 8, 0, 3, {REGISTER(0), REGISTER(0), WORD(KEPT)}},
    {EAST_TARIFF, PLEX_NO_ENTRY, PLEX_DIVIDE, 0, 9, 0, 4, {REGISTER(0), WORD(KEPT), REGISTER(0), REGISTER(1)}},
    {EAST_TARIFF, PLEX_NO_ENTRY, PLEX_ASSIGN, PLEX_ADD, 10, 0, 3, {WORD(UNITS), WORD(UNITS), REGISTER(0)}},
    {EAST_TARIFF, PLEX_NO_ENTRY, PLEX_EXIT, 0, 0, 0, 0, {NUMBER(0)}},
    {EAST_METER, PLEX_EXTERNAL, PLEX_DECIMAL_ADD, 0, 12, 0, 3, {WORD(COUNTER), WORD(COUNTER), REGISTER(0)}},
    {EAST_METER, PLEX_NO_ENTRY, PLEX_UNPACK, 0, 13, 0, 2, {REGISTER(0), REGISTER(0)}},
    {EAST_METER, PLEX_NO_ENTRY, PLEX_ASSIGN, PLEX_ADD, 14, 0, 3, {WORD(METERED), WORD(METERED), REGISTER(0)}},
    {EAST_METER, PLEX_NO_ENTRY, PLEX_EXIT, 0, 0, 0, 0, {NUMBER(0)}},
};

static const struct {
    const char *name;
    uint8_t thread, lock;
    uint16_t first_word;
} blocks[CASE_BLOCKS] = {
    [NORTH_GUEST] = {"North's guest", 0, NORTH_GUEST, 0},
    [NORTH_CHARGING] = {"North's charging", 0, FAMILY_LOCK, 120},
    [TARIFFS] = {"the tariffs", 0, FAMILY_LOCK, 0},
    [SOUTH_GUEST] = {"South's guest", 0, SOUTH_GUEST, 75},
    [AUDIT] = {"the audit", 1, AUDIT, 0},
    [EAST_GUEST] = {"East's guest", 2, EAST_GUEST, 0},
    [EAST_LEDGER] = {"East's ledger", 3, EAST_LEDGER, 0},
    [EAST_CHARGING] = {"East's charging", 2, EAST_CHARGING, 20},
    [EAST_TARIFF] = {"East's tariff", 2, EAST_TARIFF, KEPT_PULSES},
    [EAST_METER] = {"East's meter", 2, METER_LOCK, FIRST_COUNTER},
};

/* The thread of each step after the case's three arrivals. */
static const uint8_t stepped[] = {0, 0, 1, 1, 0, 0, 1, 0, 0, 1, 1, 1};

/* The same after each of East's six arrivals. */
static const uint8_t stepped_for_guest[] = {2, 2, 2, 2, 3, 3, 3}, stepped_for_charge[] = {2, 2};
static const uint8_t stepped_for_units[] = {2, 2, 2, 2, 2}, stepped_without_units[] = {2, 2, 2};
static const uint8_t stepped_for_meter[] = {2, 2, 2, 2, 2}, stepped_for_bad_counter[] = {2, 2};

static const char *const notes[LINKED_EVENTS] = {
    [0] = "North's guest, to be charged for 25 pulses",
    [1] = "South's guest",
    [2] = "the audit",
    [6] = "the audit calls North's charging, where North's job is",
    [7] = "the tariffs have the lock of North's charging, so no other is taken",
    [8] = "North's job inside its second nested call, with no price of a pulse",
    [9] = "the audit once more",
    [10] = "South's guest on the thread that North's job had",
    [11] = "South's RETURN, which no CALL of South's went before",
    [15] = "East's guest, at label 0 of its own image",
    [18] = "the signal to East's ledger is held until the job ends",
    [19] = "the signal becomes a tree of its own, on the ledger's thread",
    [20] = "East's ledger",
    [23] = "East's charging, a charge that is above the prepaid balance",
    [25] = "nothing goes below zero, and the balance stays",
    [26] = "East's tariff, 25 pulses and 10 pulses a unit",
    [28] = "the 7 pulses kept before are counted in",
    [29] = "32 pulses are 3 units, and the 2 that are left are kept",
    [30] = "the 3 units are charged",
    [32] = "East's tariff, where a unit has 0 pulses",
    [35] = "nobody is charged, and the pulses kept stay",
    [36] = "East's meter, a subscriber's counter of 0075, packed",
    [38] = "the meter's own counter begins again after 9999",
    [39] = "the pulses of the subscriber's counter, as a number",
    [40] = "the 75 pulses are to be charged",
    [42] = "East's meter, a counter whose third digit is 10",
    [44] = "nobody is charged, and the meter's counter stays",
};

const char *case_event_note(uint32_t index)
{
    return index < LINKED_EVENTS ? notes[index] : NULL;
}

const char *case_block_name(uint32_t block)
{
    return block < CASE_BLOCKS ? blocks[block].name : "no block of the case";
}

/* The place after the last step. */
static uint8_t *put_steps(uint8_t *event, const uint8_t *threads, size_t count)
{
    for (size_t i = 0; i < count; i++, event += PLEX_EVENT_SIZE)
        put_step(event, threads[i]);
    return event;
}

static void make_events(uint8_t *event)
{
    static const uint16_t north_pulses[] = {25}, south_value[] = {999}, east_value[] = {40}, east_charge[] = {90};
    static const uint16_t east_pulses[] = {SENT_PULSES, UNIT_PULSES}, without_unit[] = {SENT_PULSES, 0};
    static const uint16_t east_counter[] = {SENT_COUNTER}, bad_counter[] = {BAD_COUNTER};
    put_arrival(event, 0, north_pulses, 1);
    put_arrival(event += PLEX_EVENT_SIZE, 8, south_value, 1);
    put_arrival(event += PLEX_EVENT_SIZE, 9, NULL, 0);
    event = put_steps(event + PLEX_EVENT_SIZE, stepped, sizeof stepped);
    put_arrival(event, CASE_RECORDS, east_value, 1);
    event = put_steps(event + PLEX_EVENT_SIZE, stepped_for_guest, sizeof stepped_for_guest);
    put_arrival(event, CASE_RECORDS + 5, east_charge, 1);
    event = put_steps(event + PLEX_EVENT_SIZE, stepped_for_charge, sizeof stepped_for_charge);
    put_arrival(event, CASE_RECORDS + 7, east_pulses, 2);
    event = put_steps(event + PLEX_EVENT_SIZE, stepped_for_units, sizeof stepped_for_units);
    put_arrival(event, CASE_RECORDS + 7, without_unit, 2);
    event = put_steps(event + PLEX_EVENT_SIZE, stepped_without_units, sizeof stepped_without_units);
    put_arrival(event, CASE_RECORDS + 11, east_counter, 1);
    event = put_steps(event + PLEX_EVENT_SIZE, stepped_for_meter, sizeof stepped_for_meter);
    put_arrival(event, CASE_RECORDS + 11, bad_counter, 1);
    put_steps(event + PLEX_EVENT_SIZE, stepped_for_bad_counter, sizeof stepped_for_bad_counter);
}

void make_case(struct field_case *made)
{
    memset(made, 0, sizeof *made);
    put_statements(made->image, program, CASE_RECORDS);
    put_statements(made->east_image, east_program, EAST_RECORDS);
    put_lone_rows(made->table);
    for (uint32_t block = 0; block < CASE_BLOCKS; block++) {
        put_row(made->table, block, blocks[block].thread, PLEX_CMX, blocks[block].lock);
        put16(made->words + 2 * PLEX_BLOCK_WORDS * block, blocks[block].first_word);
    }
    make_events(made->events);
}
