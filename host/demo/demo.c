/* The case from the field, replayed: a guest's job traps inside its second nested call, and the
 * next guest on the same thread does RETURN. The two blocks that the job calls have one lock, for
 * which an audit on another thread waits. An engine that kept the return labels of the ended
 * job would let South's RETURN go on at label 4 and charge North for it; one that kept its locks
 * would let the audit wait for ever. East's guest, its ledger, its charging, its tariff and its meter,
 * which come as an image of their own, are linked behind the case first, and run after it: the guest's job
 * founds a tree for the ledger; the charging is sent a charge of 90 and has a prepaid balance of 20, of
 * which an engine that subtracts modulo 65,536 would make 65,466; the tariff splits pulses into units and
 * keeps those left over, and where a unit has no pulses its job traps, charges nobody and drops the pulses
 * that it was sent; the meter adds a subscriber's packed counter to its own, and one with a digit above 9
 * traps, and nobody is charged for it.
 *
 * Use: demo          prints the trace; the status is 1 if a charging word changed, a pulse is lost that was
 *                    kept at first or sent where a unit has pulses, or the meter has not counted right
 *      demo FOLDER   writes there, as files of the command plex, what it runs: the linked image and all events,
 *                    and the case's and East's own images and the case's events */
#include "case.h"
#include "fields.h"
#include "files.h"
#include "names.h"
#include "packed.h"
#include "words.h"

#include <stdio.h>
#include <string.h>

static struct field_case field;
static uint8_t linked[LINKED_RECORDS * PLEX_RECORD_SIZE];
static uint8_t state[PLEX_STATE_SIZE];
static struct groups groups;

/* Whether a call was accepted; says so if not. */
static int accepted(const char *call, uint32_t result)
{
    if (PLEX_NUMBER(result) == 0)
        return 1;
    fprintf(stderr, "demo: %s refused: %s, place %u\n", call, refusal_name(PLEX_NUMBER(result)), PLEX_PLACE(result));
    return 0;
}

static void print_program(void)
{
    for (uint32_t block = 0; block < CASE_BLOCKS; block++) {
        const uint8_t *row = row_at(field.table, block);
        printf("block %u, %s: %s, thread %u, lock %u\n", block, case_block_name(block),
               block_kind_name(row[PLEX_ROW_KIND]), row[PLEX_ROW_THREAD], row[PLEX_ROW_LOCK]);
        for (uint32_t label = 0; label < LINKED_RECORDS; label++)
            if (record_at(linked, label)[PLEX_RECORD_BLOCK] == block) {
                struct line line = {0};
                add_record(&line, linked, label);
                printf("  %s\n", line.text);
            }
    }
}

static uint32_t north_charge(void)
{
    return get16(word_at(state, NORTH_CHARGING, 0));
}

static uint32_t south_charge(void)
{
    return get16(word_at(state, SOUTH_GUEST, 0));
}

static uint32_t east_balance(void)
{
    return get16(word_at(state, EAST_CHARGING, 0));
}

static uint32_t east_units(void)
{
    return get16(word_at(state, EAST_TARIFF, UNITS));
}

static uint32_t east_kept(void)
{
    return get16(word_at(state, EAST_TARIFF, KEPT));
}

static uint32_t east_counter(void)
{
    return get16(word_at(state, EAST_METER, COUNTER));
}

static uint32_t east_metered(void)
{
    return get16(word_at(state, EAST_METER, METERED));
}

static void print_event(uint32_t index, const uint8_t *event)
{
    const char *note = case_event_note(index);
    struct line line = {0};
    add_event(&line, event);
    if (note != NULL)
        add(&line, " (%s)", note);
    printf("\nevent %u: %s\n", index, line.text);
}

static void print_thread(const char *when, uint32_t thread)
{
    struct line line = {0};
    add_thread(&line, thread_at(state, thread));
    printf("    %-9s thread %u %s\n", when, thread, line.text);
}

/* The statement that a step of a running thread is about to carry out. */
static void print_statement(uint32_t thread)
{
    uint32_t label = get16(thread_at(state, thread) + PLEX_THREAD_LABEL);
    struct line line = {0};
    if (label == PLEX_IDLE)
        return;
    add_statement(&line, record_at(linked, label));
    printf("    statement label %u: %s\n", label, line.text);
}

static void print_answer(const uint8_t *answer)
{
    struct line line = {0};
    add_answer(&line, answer, &groups);
    printf("    answer    code %u, detail %u: %s\n", answer[PLEX_ANSWER_CODE], answer[PLEX_ANSWER_DETAIL], line.text);
}

/* What the step has read and stored, where packed numbers are concerned. */
static void print_values(uint32_t thread, const uint8_t *answer, const uint8_t *before)
{
    struct line line = {0};
    add_decimal_step(&line, linked, thread, answer, before, state);
    if (line.length != 0)
        printf("    values    %s\n", line.text);
}

static void print_charges(void)
{
    printf("    charges   North %u, South %u; balance East %u; units East %u, pulses kept %u\n", north_charge(),
           south_charge(), east_balance(), east_units(), east_kept());
}

static void print_metered(void)
{
    struct line counter = {0};
    add_packed(&counter, east_counter());
    printf("    meter     %s, pulses metered %u\n", counter.text, east_metered());
}

/* Who is in the way of a thread that was told to wait. */
static int print_walk(uint32_t thread)
{
    uint8_t met[PLEX_MET_SIZE];
    uint32_t result =
        plex_walk(linked, sizeof linked, field.table, sizeof field.table, state, sizeof state, thread, met, sizeof met);
    if (!accepted("plex_walk", result))
        return 0;
    printf("    the walk  thread %u", met[0]);
    for (uint32_t i = 1; i < PLEX_MET_SIZE && met[i] != PLEX_UNMET; i++)
        printf(" waits for thread %u, which", met[i]);
    printf("%s\n", result & PLEX_RING ? " closes a ring" : " does not wait");
    return 1;
}

static int replay(uint32_t index)
{
    const uint8_t *event = field.events + PLEX_EVENT_SIZE * index;
    uint32_t thread = event[PLEX_EVENT_THREAD];
    int is_arrival = event[PLEX_EVENT_KIND] == PLEX_ARRIVAL;
    uint8_t answer[PLEX_ANSWER_SIZE], before[PLEX_STATE_SIZE];
    memcpy(before, state, sizeof before);
    print_event(index, event);
    if (!is_arrival) {
        print_thread("before", thread);
        print_statement(thread);
    }
    if (!accepted("plex_run", plex_run(linked, sizeof linked, field.table, sizeof field.table, state, sizeof state,
                                       event, PLEX_EVENT_SIZE, answer, sizeof answer)))
        return 0;
    print_answer(answer);
    if (!is_arrival) {
        print_values(thread, answer, before);
        print_thread("after", thread);
    }
    print_charges();
    if (index >= LINKED_EVENTS - METER_EVENTS)
        print_metered();
    return answer[PLEX_ANSWER_CODE] != PLEX_WAITING || print_walk(thread);
}

/* One image of both. */
static int link_images(void)
{
    return accepted("plex_link", plex_link(field.image, sizeof field.image, field.east_image, sizeof field.east_image,
                                           field.table, sizeof field.table, linked, sizeof linked));
}

/* A fresh machine for the linked image. */
static int begin(void)
{
    printf("The image of East's guest is linked behind the case; its labels are now %d higher.\n\n", CASE_RECORDS);
    groups = find_groups(linked, LINKED_RECORDS, field.table);
    print_program();
    if (!accepted("plex_check", plex_check(linked, sizeof linked, field.table, sizeof field.table)) ||
        !accepted("plex_fresh", plex_fresh(linked, sizeof linked, field.table, sizeof field.table, field.words,
                                           sizeof field.words, state, sizeof state)))
        return 0;
    printf("\nThe linked image and the table are accepted, and a fresh machine is made.\n");
    return 1;
}

/* Whether each pulse that East's tariff kept at first, and each that it was sent where a unit has pulses,
 * is charged or kept. Those that it was sent where a unit has none went with the job that trapped. */
static int print_units(void)
{
    uint32_t pulses = KEPT_PULSES + SENT_PULSES;
    int none_lost = UNIT_PULSES * east_units() + east_kept() == pulses && east_kept() < UNIT_PULSES;
    printf("Of %u pulses East's tariff has charged %u units of %d, and it keeps %u: %s.\n", pulses, east_units(),
           UNIT_PULSES, east_kept(), none_lost ? "none is lost" : "some are LOST");
    if (none_lost)
        printf("The %d pulses sent where a unit has 0 are not among them: the trap dropped them.\n", SENT_PULSES);
    return none_lost;
}

/* Whether East's meter has counted what came packed, and nothing else. */
static int print_meter(void)
{
    struct line words = {0};
    int is_right = east_counter() == LAST_COUNTER && east_metered() == COUNTED_PULSES;
    add(&words, "East's meter had ");
    add_packed(&words, FIRST_COUNTER);
    add(&words, " and was sent ");
    add_packed(&words, SENT_COUNTER);
    add(&words, ": it has ");
    add_packed(&words, east_counter());
    printf("%s, and %u pulses are to be charged%s.\n", words.text, east_metered(), is_right ? "" : ", which is WRONG");
    if (is_right)
        printf("The counter with a digit above 9 was not counted: the trap dropped it.\n");
    return is_right;
}

static int trace(void)
{
    struct line counter = {0};
    if (!begin())
        return 1;
    uint32_t north = north_charge(), south = south_charge(), east = east_balance();
    printf("charges: North %u (block %d, word 0), South %u (block %d, word 0); balance: East %u (block %d, word 0)\n",
           north, NORTH_CHARGING, south, SOUTH_GUEST, east, EAST_CHARGING);
    printf("units: East %u (block %d, word %d); pulses kept: %u (block %d, word %d)\n", east_units(), EAST_TARIFF,
           UNITS, east_kept(), EAST_TARIFF, KEPT);
    add_packed(&counter, east_counter());
    printf("meter: East %s (block %d, word %d); pulses metered: %u (block %d, word %d)\n", counter.text, EAST_METER,
           COUNTER, east_metered(), EAST_METER, METERED);
    for (uint32_t index = 0; index < LINKED_EVENTS; index++)
        if (!replay(index))
            return 1;
    int kept = north_charge() == north && south_charge() == south && east_balance() == east;
    printf("\nThe charging words %s: North %u, South %u, East %u. "
           "The audit read %u, East counted %u, and its ledger has %u.\n",
           kept ? "are as they were" : "CHANGED", north_charge(), south_charge(), east_balance(),
           get16(word_at(state, AUDIT, 0)), get16(word_at(state, EAST_GUEST, 0)),
           get16(word_at(state, EAST_LEDGER, 0)));
    int are_units_right = print_units(), is_meter_right = print_meter();
    return kept && are_units_right && is_meter_right ? 0 : 1;
}

static int write_part(const char *folder, const char *name, const uint8_t *bytes, size_t size)
{
    char path[4096];
    snprintf(path, sizeof path, "%s/%s", folder, name);
    int failed = write_file(path, bytes, size);
    if (failed)
        fprintf(stderr, "demo: %s: cannot be written: %s\n", path, strerror(failed));
    return failed;
}

static int write_case(const char *folder)
{
    return write_part(folder, "case.image", field.image, sizeof field.image) ||
           write_part(folder, "case.table", field.table, sizeof field.table) ||
           write_part(folder, "case.words", field.words, sizeof field.words) ||
           write_part(folder, "case.events", field.events, CASE_EVENTS * PLEX_EVENT_SIZE) ||
           write_part(folder, "east.image", field.east_image, sizeof field.east_image) ||
           write_part(folder, "linked.image", linked, sizeof linked) ||
           write_part(folder, "linked.events", field.events, sizeof field.events);
}

int main(int argc, char **argv)
{
    if (argc > 2) {
        fprintf(stderr, "demo: %s is one argument too many\nUse: demo [FOLDER]\n", argv[2]);
        return 2;
    }
    make_case(&field);
    if (!link_images())
        return 1;
    return argc < 2 ? trace() : write_case(argv[1]);
}
