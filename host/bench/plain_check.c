/* The image check: refusals 1 to 4, with one pass over the image. */
#include "plain.h"
#include "plain_rules.h"

/* Of the record at a label, the block is the low byte and the entry the high. */
enum { BLOCK_BOUND = 0x00FF, ENTRY_BOUND = 0xFF00 };
enum { AT_DIRECT = PLEX_DIRECT << 8, AT_BUFFERED = PLEX_BUFFERED << 8 };

/* The bits that are zero in a field. A block is below 16 and an entry below 4; an operator, where used, below 8. */
enum { USED = 0, UNUSED = 0xFF, BELOW_2 = 0xFE, BELOW_4 = 0xFC, BELOW_8 = 0xF8, BELOW_16 = 0xF0 };
#define ZERO_BITS(operator, a, b)                                                                                      \
    {                                                                                                                  \
        0, BELOW_16, BELOW_4, operator, a, a, b, b                                                                     \
    }
enum { ONLY_ZERO = 1 << 0, ONE_TO_FOUR = 0x1E, ONE_OR_TWO = 0x06 };

const struct opcode_rule plain_opcode_rules[] = {
    [0] = {ZERO_BITS(UNUSED, UNUSED, UNUSED), 0, 0, 0, 0, 0, 0},
    [PLEX_SKIP] = {ZERO_BITS(UNUSED, USED, UNUSED), BLOCK_BOUND, 0, 0, ONLY_ZERO, 0, 0},
    [PLEX_ASSIGN] = {ZERO_BITS(BELOW_8, USED, UNUSED), BLOCK_BOUND, 0, 0, ONE_TO_FOUR, 2, 1},
    [PLEX_GOTO] = {ZERO_BITS(UNUSED, USED, UNUSED), BLOCK_BOUND, 0, 0, ONLY_ZERO, 0, 0},
    [PLEX_IF] = {ZERO_BITS(BELOW_8, USED, USED), BLOCK_BOUND, 0, BLOCK_BOUND, ONE_OR_TWO, 2, 0},
    [PLEX_SEND_DIRECT] = {ZERO_BITS(UNUSED, USED, UNUSED), ENTRY_BOUND, AT_DIRECT, 0, ONLY_ZERO, 0, PLEX_REGISTERS},
    [PLEX_SEND_BUFFERED] = {ZERO_BITS(UNUSED, USED, USED), ENTRY_BOUND, AT_BUFFERED, BLOCK_BOUND, ONLY_ZERO, 0,
                            PLEX_REGISTERS},
    [PLEX_CALL] = {ZERO_BITS(UNUSED, USED, USED), ENTRY_BOUND, AT_DIRECT, BLOCK_BOUND, ONLY_ZERO, 0, PLEX_REGISTERS},
    [PLEX_RETURN] = {ZERO_BITS(UNUSED, UNUSED, UNUSED), 0, 0, 0, ONLY_ZERO, 0, PLEX_REGISTERS},
    [PLEX_TRANSFER] = {ZERO_BITS(UNUSED, USED, UNUSED), BLOCK_BOUND | ENTRY_BOUND, AT_DIRECT, 0, ONLY_ZERO, 0,
                       PLEX_REGISTERS},
    [PLEX_EXIT] = {ZERO_BITS(UNUSED, UNUSED, UNUSED), 0, 0, 0, ONLY_ZERO, 0, 0},
    [PLEX_SEND_TREE] = {ZERO_BITS(UNUSED, USED, USED), ENTRY_BOUND, AT_BUFFERED, BLOCK_BOUND, ONLY_ZERO, 0,
                        PLEX_REGISTERS},
    [PLEX_DIVIDE] = {ZERO_BITS(UNUSED, USED, UNUSED), BLOCK_BOUND, 0, 0, ONLY_ZERO, 4, 0},
    [PLEX_PACK] = {ZERO_BITS(UNUSED, USED, UNUSED), BLOCK_BOUND, 0, 0, ONLY_ZERO, 2, 0},
    [PLEX_UNPACK] = {ZERO_BITS(UNUSED, USED, UNUSED), BLOCK_BOUND, 0, 0, ONLY_ZERO, 2, 0},
    [PLEX_DECIMAL_ADD] = {ZERO_BITS(UNUSED, USED, UNUSED), BLOCK_BOUND, 0, 0, ONLY_ZERO, 3, 0},
};
enum { LAST_OPCODE = sizeof plain_opcode_rules / sizeof plain_opcode_rules[0] - 1 };

/* The opcodes whose first operand is a destination. */
enum { STORING = 1 << PLEX_ASSIGN | 1 << PLEX_DIVIDE | 1 << PLEX_PACK | 1 << PLEX_UNPACK | 1 << PLEX_DECIMAL_ADD };

const uint8_t plain_zeros[PLEX_TREES_MAX * PLEX_TREE_SIZE];

/* An operand's value is below this; for a byte that is no kind nothing is. */
static const int32_t value_limit[256] = {
    [PLEX_NUMBER_OPERAND] = 65536, [PLEX_REGISTER_OPERAND] = PLEX_REGISTERS, [PLEX_WORD_OPERAND] = PLEX_BLOCK_WORDS};

/* The bits that are zero in a row of the table (thread, kind and lock), and in eight rows. */
#define ROW_ZERO_BITS BELOW_8, BELOW_2, BELOW_16
enum { EIGHT_ROWS = 8 * PLEX_ROW_SIZE };
static const uint8_t zero_bits_of_rows[EIGHT_ROWS] = {ROW_ZERO_BITS, ROW_ZERO_BITS, ROW_ZERO_BITS, ROW_ZERO_BITS,
                                                      ROW_ZERO_BITS, ROW_ZERO_BITS, ROW_ZERO_BITS, ROW_ZERO_BITS};

/* Eight rows are three times eight bytes; the last eight rows are laid over the first. */
static inline bool table_holds(const uint8_t *table)
{
    uint64_t amiss = 0;
    for (size_t i = 0; i < EIGHT_ROWS; i += 8)
        amiss |= (eight_bytes(table + i) | eight_bytes(table + EIGHT_ROWS + i)) & eight_bytes(zero_bits_of_rows + i);
    return amiss == 0;
}

/* Given a table that does not hold. */
static uint32_t first_bad_block(const uint8_t *table)
{
    const uint8_t *row = table;
    while (row[PLEX_ROW_THREAD] < PLEX_THREADS && row[PLEX_ROW_KIND] <= PLEX_CMX && row[PLEX_ROW_LOCK] < PLEX_LOCKS)
        row += PLEX_ROW_SIZE;
    return (uint32_t)(row - table) / PLEX_ROW_SIZE;
}

static inline bool header_holds(const uint8_t *record, const struct opcode_rule *rule)
{
    uint32_t operator= record[PLEX_RECORD_OPERATOR];
    uint32_t further = record[PLEX_RECORD_COUNT] - (uint32_t)rule->fewest_operands;
    return (eight_bytes(record) & eight_bytes(rule->zero_bits)) == 0 && (rule->operators >> operator& 1) &&
           further <= rule->further_operands;
}

/* Given a header that holds, so an unused label is 0, which is below n: labels
 * are below n, and their records have the entry and the block asked for. */
static inline bool labels_hold(const uint8_t *image, uint32_t records, const uint8_t *record,
                               const struct opcode_rule *rule)
{
    uint32_t a = get16(record + PLEX_RECORD_A);
    uint32_t b = get16(record + PLEX_RECORD_B);
    if (a >= records || b >= records)
        return false;
    const uint8_t *at_a = image + PLEX_RECORD_SIZE * a;
    const uint8_t *at_b = image + PLEX_RECORD_SIZE * b;
    uint32_t block = record[PLEX_RECORD_BLOCK];
    uint32_t amiss_at_a = get16(at_a + PLEX_RECORD_BLOCK) ^ (rule->entry_at_a | block);
    uint32_t amiss_at_b = at_b[PLEX_RECORD_BLOCK] ^ block;
    return ((amiss_at_a & rule->bound_at_a) | (amiss_at_b & rule->bound_at_b)) == 0;
}

/* Given a count of at most 25: each operand is of its kind (its value minus its
 * limit is negative), and the bytes after the last are zero. */
static inline bool operands_hold(const uint8_t *record)
{
    const uint8_t *operand = record + PLEX_RECORD_OPERANDS;
    const uint8_t *end = operand + PLEX_OPERAND_SIZE * record[PLEX_RECORD_COUNT];
    int32_t all_negative = -1;
#pragma GCC unroll 4
    for (; operand < end; operand += PLEX_OPERAND_SIZE)
        all_negative &= (int32_t)get16(operand + 1) - value_limit[operand[0]];
    return all_negative < 0 && all_zero(end, (size_t)(record + PLEX_RECORD_SIZE - end));
}

/* Copy alone has two operands. */
static inline bool assign_holds(const uint8_t *record)
{
    return record[PLEX_RECORD_COUNT] == (record[PLEX_RECORD_OPERATOR] == PLEX_COPY ? 2 : 3);
}

/* The second destination is no number either, and not the first. */
static inline bool divide_holds(const uint8_t *record)
{
    const uint8_t *quotient = operand_at(record, 0), *remainder = operand_at(record, 1);
    return remainder[PLEX_OPERAND_KIND] != PLEX_NUMBER_OPERAND && memcmp(quotient, remainder, PLEX_OPERAND_SIZE) != 0;
}

/* Given an opcode that stores: its first destination is no number, and what ASSIGN and DIVIDE ask for besides holds. */
static inline bool storing_holds(const uint8_t *record, uint32_t opcode)
{
    return record[PLEX_RECORD_OPERANDS] != PLEX_NUMBER_OPERAND && (opcode != PLEX_ASSIGN || assign_holds(record)) &&
           (opcode != PLEX_DIVIDE || divide_holds(record));
}

/* An unknown opcode is refused by header_holds, before STORING is shifted by it. */
static inline bool record_holds(const uint8_t *image, uint32_t records, const uint8_t *record)
{
    uint32_t opcode = record[PLEX_RECORD_OPCODE];
    const struct opcode_rule *rule = &plain_opcode_rules[opcode <= LAST_OPCODE ? opcode : 0];
    return header_holds(record, rule) && labels_hold(image, records, record, rule) && operands_hold(record) &&
           (!(STORING >> opcode & 1) || storing_holds(record, opcode));
}

uint32_t plain_check(const uint8_t *image, size_t image_len, const uint8_t *table, size_t table_len)
{
    size_t records = image_len / PLEX_RECORD_SIZE;
    if (image_len % PLEX_RECORD_SIZE != 0 || records < 1 || records > PLEX_RECORDS_MAX)
        return refuse(PLEX_BAD_IMAGE_LENGTH, 0);
    if (table_len != PLEX_TABLE_SIZE)
        return refuse(PLEX_BAD_TABLE_LENGTH, 0);
    if (!table_holds(table))
        return refuse(PLEX_BAD_TABLE_FIELD, first_bad_block(table));
    for (uint32_t label = 0; label < records; label++)
        if (!record_holds(image, (uint32_t)records, image + PLEX_RECORD_SIZE * label))
            return refuse(PLEX_BAD_RECORD, label);
    return 0;
}
