/* The plain engine of the benchmark does what the library does: on good and damaged bytes the calls of
 * both return the same, and leave the same bytes. Each number of check and link has to be met, the last
 * byte of a table refused, each calculation that breaks any one rule refused, and one of each opcode moved
 * by a link. */
#include "plain_calculations.h"
#include "plain_runs.h"
#include "plain.h"
#include "bench_image.h"
#include "damage.h"
#include "plain_sights.h"
#include "plex.h"

#include <stdio.h>
#include <string.h>

enum { TRIALS = 6000, CALCULATION_TRIALS = 100, LONGEST = PLEX_RECORDS_MAX * PLEX_RECORD_SIZE };

/* Bytes that are lent, with room for one record too many. */
struct lent {
    uint8_t bytes[LONGEST + PLEX_RECORD_SIZE];
    size_t size;
};

static struct lent first, second, table;
static uint8_t by_plex[2 * sizeof first.bytes + PLEX_RECORD_SIZE], by_plain[sizeof by_plex];
static uint32_t failures, checks[PLEX_BAD_OUTPUT_LENGTH + 1], links[PLEX_BAD_OUTPUT_LENGTH + 1];
static uint32_t refused_last_locks, linked_calculations[LAST_CALCULATION + 1];

static void expect(const char *what, uint32_t expected, uint32_t found)
{
    if (expected == found)
        return;
    failures++;
    printf("plain: %s: number %u, place %u, expected %u, %u\n", what, PLEX_NUMBER(found), PLEX_PLACE(found),
           PLEX_NUMBER(expected), PLEX_PLACE(expected));
}

/* A guest of so many records in 8 blocks. */
static void make_whole_guest(struct lent *image, uint32_t records, uint32_t first_block)
{
    bench_guest_image(image->bytes, records, first_block);
    image->size = PLEX_RECORD_SIZE * records;
    make_tree_sends(image->bytes, records);
    make_calculations(image->bytes, records);
}

/* Of any length, mostly a short one, and at times damaged. */
static void make_guest(struct lent *image, uint32_t first_block)
{
    uint32_t records = 32 * (1 + below(below(4) == 0 ? 16 : 2));
    make_whole_guest(image, records, first_block);
    if (below(3) == 0)
        damage_record(image->bytes, records);
}

/* The last length is that of a table whose rows end before the lock. */
static void damage_length(size_t *size)
{
    const size_t lengths[] = {0, *size - 1, *size + 1, *size + PLEX_RECORD_SIZE, PLEX_ROW_LOCK * PLEX_BLOCKS};
    *size = lengths[below(sizeof lengths / sizeof lengths[0])];
}

/* The blocks of the second guest begin after the first's, or before their end. */
static void make_pair(void)
{
    make_guest(&first, 0);
    make_guest(&second, GUEST_BLOCKS - (below(4) == 0 ? below(GUEST_BLOCKS + 1) : 0));
    make_table(table.bytes);
    table.size = PLEX_TABLE_SIZE;
    if (below(8) == 0)
        damage_table(table.bytes);
}

/* The calculations of the second guest. */
static void count_linked(void)
{
    uint32_t records = (uint32_t)(second.size / PLEX_RECORD_SIZE);
    for (uint32_t opcode = FIRST_CALCULATION; opcode <= LAST_CALCULATION; opcode++)
        linked_calculations[opcode] += find_statement(second.bytes, records, opcode) != 0;
}

static void try_pair(void)
{
    make_pair();
    size_t *sizes[] = {&first.size, &second.size, &table.size};
    if (below(6) == 0)
        damage_length(sizes[below(3)]);
    size_t size = first.size + second.size;
    if (below(6) == 0)
        damage_length(&size);
    uint32_t result = plex_check(first.bytes, first.size, table.bytes, table.size);
    checks[PLEX_NUMBER(result)]++;
    refused_last_locks += PLEX_NUMBER(result) == PLEX_BAD_TABLE_FIELD && table.bytes[PLEX_TABLE_SIZE - 1] >= PLEX_LOCKS;
    expect("check", result, plain_check(first.bytes, first.size, table.bytes, table.size));
    memset(by_plex, 7, sizeof by_plex);
    memset(by_plain, 7, sizeof by_plain);
    result = plex_link(first.bytes, first.size, second.bytes, second.size, table.bytes, table.size, by_plex, size);
    links[PLEX_NUMBER(result)]++;
    if (result == 0)
        count_linked();
    expect("link", result,
           plain_link(first.bytes, first.size, second.bytes, second.size, table.bytes, table.size, by_plain, size));
    expect("bytes of a link", 0, memcmp(by_plex, by_plain, sizeof by_plex) != 0);
}

/* Of a guest that is else whole, a calculation that breaks one rule is refused. */
static void try_fault(uint32_t opcode, enum calculation_fault fault)
{
    second = first;
    uint32_t label = find_statement(second.bytes, PLEX_RECORDS_MAX, opcode);
    expect("a calculation of each opcode", 1, label != 0);
    break_calculation(second.bytes, PLEX_RECORDS_MAX, label, fault);
    uint32_t result = plex_check(second.bytes, second.size, table.bytes, PLEX_TABLE_SIZE);
    expect("a faulty calculation", 65536 * PLEX_BAD_RECORD + label, result);
    expect("check", result, plain_check(second.bytes, second.size, table.bytes, PLEX_TABLE_SIZE));
}

static void try_faulty_calculations(void)
{
    make_whole_guest(&first, PLEX_RECORDS_MAX, 0);
    make_table(table.bytes);
    expect("a guest", 0, plex_check(first.bytes, first.size, table.bytes, PLEX_TABLE_SIZE));
    for (uint32_t opcode = FIRST_CALCULATION; opcode <= LAST_CALCULATION; opcode++)
        for (uint32_t fault = 0; fault < faults_of(opcode); fault++)
            try_fault(opcode, (enum calculation_fault)fault);
}

/* Whether calls that may refuse with numbers in this range were accepted, and refused by each of them. */
static bool were_met(const uint32_t *results, uint32_t lowest, uint32_t highest)
{
    return results[0] != 0 && are_all_met(results, lowest, highest);
}

int main(void)
{
    for (uint32_t trial = 0; trial < TRIALS; trial++)
        try_pair();
    for (uint32_t trial = 0; trial < CALCULATION_TRIALS; trial++)
        try_faulty_calculations();
    bool all_met = were_met(checks, PLEX_BAD_IMAGE_LENGTH, PLEX_BAD_RECORD) &&
                   were_met(links, PLEX_BAD_IMAGE_LENGTH, PLEX_BAD_RECORD) &&
                   were_met(links, PLEX_SHARED_BLOCK, PLEX_BAD_OUTPUT_LENGTH) && refused_last_locks != 0 &&
                   are_all_met(linked_calculations, FIRST_CALCULATION, LAST_CALCULATION);
    printf("plain: %u checks and links, %u and %u of them accepted%s; %u failures\n", TRIALS, checks[0], links[0],
           all_met ? ", with every case" : ", NOT with every case", failures);
    bool do_agree = do_runs_agree();
    return !do_calculations_agree() || !do_agree || failures != 0 || !all_met;
}
