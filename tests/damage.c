#include "damage.h"
#include "bench_image.h"
#include "fields.h"

#include <string.h>

/* The operands of DIVIDE, and those of PACK, UNPACK and DECIMAL ADD. */
enum { QUOTIENT, REMAINDER, P, Q, DIVIDE_OPERANDS };
enum { DESTINATION, FIRST_SOURCE };

uint32_t below(uint32_t limit)
{
    static uint64_t chance = 88172645463325252u;
    chance ^= chance << 13;
    chance ^= chance >> 7;
    chance ^= chance << 17;
    return (uint32_t)(chance >> 32) % limit;
}

void damage(uint8_t *bytes, size_t size)
{
    static const uint8_t telling[] = {0, 1, 2, 3, 4, 5, 7, 8, 9, 10, 11, 12, 13, 14, 15, 16, 24, 25, 26, 255};
    uint8_t *byte = bytes + below((uint32_t)size);
    if (below(2) == 0)
        *byte = telling[below(sizeof telling)];
    else
        *byte ^= (uint8_t)(1u << below(8));
}

void make_tree_sends(uint8_t *image, uint32_t records)
{
    for (uint8_t *record = image; record < image + PLEX_RECORD_SIZE * records; record += PLEX_RECORD_SIZE)
        if (record[PLEX_RECORD_OPCODE] == PLEX_SEND_BUFFERED && below(2) == 0)
            record[PLEX_RECORD_OPCODE] = PLEX_SEND_TREE;
}

static uint8_t *operand_of(uint8_t *record, uint32_t index)
{
    return record + PLEX_RECORD_OPERANDS + PLEX_OPERAND_SIZE * index;
}

static void copy_operand(uint8_t *record, uint32_t to, uint32_t from)
{
    memcpy(operand_of(record, to), operand_of(record, from), PLEX_OPERAND_SIZE);
}

/* Half of the values are 0 or 1, so that places meet and numbers are at the edge. */
static void make_operand(uint8_t *operand, uint32_t kind)
{
    uint32_t limit = below(2) == 0 ? 2 : bench_operand_limit(kind);
    operand[PLEX_OPERAND_KIND] = (uint8_t)kind;
    put16(operand + PLEX_OPERAND_VALUE, below(limit));
}

/* Makes a source one of the destinations; half of the time the other source is then the other destination. */
static void share_operands(uint8_t *record)
{
    uint32_t source = below(2), destination = below(2);
    copy_operand(record, P + source, QUOTIENT + destination);
    if (below(2) == 0)
        copy_operand(record, P + 1 - source, QUOTIENT + 1 - destination);
}

static void make_destination(uint8_t *operand)
{
    make_operand(operand, PLEX_REGISTER_OPERAND + below(2));
}

static void make_division(uint8_t *record)
{
    record[PLEX_RECORD_COUNT] = DIVIDE_OPERANDS;
    do {
        make_destination(operand_of(record, QUOTIENT));
        make_destination(operand_of(record, REMAINDER));
    } while (memcmp(operand_of(record, QUOTIENT), operand_of(record, REMAINDER), PLEX_OPERAND_SIZE) == 0);
    make_operand(operand_of(record, P), PLEX_NUMBER_OPERAND + below(3));
    make_operand(operand_of(record, Q), PLEX_NUMBER_OPERAND + below(3));
    if (below(4) == 0)
        share_operands(record);
}

uint32_t decimal_number(void)
{
    static const uint16_t telling[] = {0, 1, 9998, 9999, 10000, 10001, 0x9999, 0xA, 0xA0, 0xA00, 0xA000};
    uint32_t number = 0;
    if (below(2) == 0)
        return telling[below(sizeof telling / sizeof telling[0])];
    for (uint32_t place = 0; place < 16; place += 4)
        number |= below(below(8) == 0 ? 16 : 10) << place;
    return number;
}

/* One source in four is the destination. */
static void make_decimal(uint8_t *record, uint32_t sources)
{
    record[PLEX_RECORD_COUNT] = (uint8_t)(FIRST_SOURCE + sources);
    make_destination(operand_of(record, DESTINATION));
    for (uint32_t i = FIRST_SOURCE; i < FIRST_SOURCE + sources; i++) {
        uint8_t *source = operand_of(record, i);
        make_operand(source, PLEX_NUMBER_OPERAND + below(3));
        if (source[PLEX_OPERAND_KIND] == PLEX_NUMBER_OPERAND)
            put16(source + PLEX_OPERAND_VALUE, decimal_number());
        if (below(4) == 0)
            copy_operand(record, i, DESTINATION);
    }
}

uint32_t any_calculation(void)
{
    return FIRST_CALCULATION + below(LAST_CALCULATION + 1 - FIRST_CALCULATION);
}

void make_calculation(uint8_t *record)
{
    uint32_t opcode = any_calculation();
    record[PLEX_RECORD_OPCODE] = (uint8_t)opcode;
    if (opcode == PLEX_DIVIDE)
        make_division(record);
    else
        make_decimal(record, opcode == PLEX_DECIMAL_ADD ? 2 : 1);
}

void make_calculations(uint8_t *image, uint32_t records)
{
    for (uint8_t *record = image; record < image + PLEX_RECORD_SIZE * records; record += PLEX_RECORD_SIZE) {
        uint32_t opcode = record[PLEX_RECORD_OPCODE];
        if ((opcode == PLEX_SKIP || opcode == PLEX_GOTO) && below(8) != 0)
            make_calculation(record);
    }
}

uint32_t find_statement(const uint8_t *image, uint32_t records, uint32_t opcode)
{
    uint32_t others = records - 1, first = below(others);
    for (uint32_t i = 0; i < others; i++) {
        uint32_t label = 1 + (first + i) % others;
        if (record_at(image, label)[PLEX_RECORD_OPCODE] == opcode)
            return label;
    }
    return 0;
}

uint32_t faults_of(uint32_t opcode)
{
    return opcode == PLEX_DIVIDE ? DIVISION_FAULTS : CALCULATION_FAULTS;
}

void break_calculation(uint8_t *image, uint32_t records, uint32_t label, enum calculation_fault fault)
{
    uint8_t *record = image + PLEX_RECORD_SIZE * label;
    if (fault == NUMBER_FOR_DESTINATION)
        operand_of(record, DESTINATION)[PLEX_OPERAND_KIND] = PLEX_NUMBER_OPERAND;
    else if (fault == OPERAND_TOO_FEW)
        memset(operand_of(record, --record[PLEX_RECORD_COUNT]), 0, PLEX_OPERAND_SIZE);
    else if (fault == OPERAND_TOO_MANY)
        copy_operand(record, record[PLEX_RECORD_COUNT]++, DESTINATION);
    else if (fault == OPERATOR_GIVEN)
        record[PLEX_RECORD_OPERATOR] = (uint8_t)(PLEX_COPY + below(PLEX_MULTIPLY));
    else if (fault == LABEL_A_ELSEWHERE)
        put16(record + PLEX_RECORD_A, label - 1);
    else if (fault == LABEL_A_BEYOND)
        put16(record + PLEX_RECORD_A, records);
    else if (fault == LABEL_B_GIVEN)
        put16(record + PLEX_RECORD_B, label);
    else if (fault == NUMBER_FOR_REMAINDER)
        operand_of(record, REMAINDER)[PLEX_OPERAND_KIND] = PLEX_NUMBER_OPERAND;
    else
        copy_operand(record, REMAINDER, QUOTIENT);
}

void make_table(uint8_t *table)
{
    uint32_t locks = 1 + below(PLEX_LOCKS), first_lock = below(PLEX_LOCKS - locks + 1);
    for (uint8_t *row = table; row < table + PLEX_TABLE_SIZE; row += PLEX_ROW_SIZE) {
        row[PLEX_ROW_THREAD] = (uint8_t)below(PLEX_THREADS);
        row[PLEX_ROW_KIND] = below(4) == 0 ? PLEX_FD : PLEX_CMX;
        row[PLEX_ROW_LOCK] = (uint8_t)(first_lock + below(locks));
    }
}

void damage_table(uint8_t *table)
{
    static const uint8_t locks[] = {PLEX_LOCKS - 1, PLEX_LOCKS, 255};
    uint32_t block = below(2) == 0 ? PLEX_BLOCKS - 1 : below(PLEX_BLOCKS);
    if (below(2) == 0)
        table[PLEX_ROW_SIZE * block + PLEX_ROW_LOCK] = locks[below(sizeof locks)];
    else
        damage(table, PLEX_TABLE_SIZE);
}

void damage_record(uint8_t *image, uint32_t records)
{
    size_t width = below(2) ? PLEX_RECORD_SIZE : 16;
    damage(image + PLEX_RECORD_SIZE * below(records), width);
}
