#include "plain_sights.h"
#include "plain_decimal.h"
#include "plain_state.h"

bool are_all_met(const uint32_t *counts, uint32_t first, uint32_t last)
{
    bool all = true;
    for (uint32_t i = first; i <= last; i++)
        all = all && counts[i] != 0;
    return all;
}

/* The record of the thread's next step, or NULL if it is idle. */
static const uint8_t *next_record(const struct machine *machine, const uint8_t *thread)
{
    uint32_t label = get16(thread + PLEX_THREAD_LABEL);
    return label == PLEX_IDLE ? NULL : record_at(machine->image, label);
}

/* A source; its value is zero if it is an absent register. */
struct source {
    uint32_t value;
    bool is_absent;
};

static struct source read_source(const uint8_t *state, const uint8_t *thread, const uint8_t *record, uint32_t index)
{
    uint32_t read = 0;
    uint32_t value = operand_value(state, thread, record[PLEX_RECORD_BLOCK], operand_at(record, index), &read);
    return (struct source){value, (read & ~get32(thread + PLEX_THREAD_PRESENCE)) != 0};
}

static bool are_one_place(const uint8_t *record, uint32_t operand, uint32_t other)
{
    return memcmp(operand_at(record, operand), operand_at(record, other), PLEX_OPERAND_SIZE) == 0;
}

enum subtraction next_subtraction(const struct machine *machine, const uint8_t *state, uint32_t thread)
{
    const uint8_t *bytes = thread_at(state, thread), *record = next_record(machine, bytes);
    if (record == NULL || record[PLEX_RECORD_OPCODE] != PLEX_ASSIGN || record[PLEX_RECORD_OPERATOR] != PLEX_SUBTRACT)
        return NO_SUBTRACTION;
    struct source p = read_source(state, bytes, record, 1), q = read_source(state, bytes, record, 2);
    if (p.is_absent || q.is_absent)
        return p.value < q.value ? ABSENT_BELOW_Q : NO_SUBTRACTION;
    return p.value > q.value ? P_ABOVE_Q : p.value == q.value ? P_EQUALS_Q : P_BELOW_Q;
}

/* Given that one of them is there. */
static enum division sight_of_divided(struct source p, struct source q)
{
    if (p.is_absent)
        return q.value == 0 ? ABSENT_BY_ZERO : ABSENT_BY_NUMBER;
    if (q.value == 0)
        return q.is_absent ? BY_ABSENT : BY_ZERO;
    if (p.value > q.value)
        return p.value % q.value == 0 ? ALL_SHARED_OUT : SOME_LEFT;
    return p.value == q.value ? BY_ITSELF : ALL_LEFT;
}

/* Destinations are operands 0 and 1 of a division, sources 2 and 3; of one number they are not of one kind. */
static uint32_t sights_of_two_destinations(const uint8_t *record)
{
    const uint8_t *quotient = operand_at(record, 0), *remainder = operand_at(record, 1);
    uint32_t words =
        (quotient[PLEX_OPERAND_KIND] == PLEX_WORD_OPERAND) * 2u + (remainder[PLEX_OPERAND_KIND] == PLEX_WORD_OPERAND);
    uint32_t seen = 1u << (TO_REGISTERS + words);
    if (get16(quotient + PLEX_OPERAND_VALUE) == get16(remainder + PLEX_OPERAND_VALUE))
        seen |= 1u << TO_SAME_NUMBERS;
    for (uint32_t i = 0; i < 4; i++)
        if (are_one_place(record, i / 2, 2 + i % 2))
            seen |= 1u << (QUOTIENT_TO_P + i);
    seen |= (seen >> QUOTIENT_TO_P & seen >> REMAINDER_TO_Q & 1) << TO_P_AND_Q;
    return seen | (seen >> QUOTIENT_TO_Q & seen >> REMAINDER_TO_P & 1) << TO_Q_AND_P;
}

uint32_t next_division(const struct machine *machine, const uint8_t *state, uint32_t thread)
{
    const uint8_t *bytes = thread_at(state, thread), *record = next_record(machine, bytes);
    if (record == NULL || record[PLEX_RECORD_OPCODE] != PLEX_DIVIDE)
        return 0;
    struct source p = read_source(state, bytes, record, 2), q = read_source(state, bytes, record, 3);
    if (p.is_absent && q.is_absent)
        return 0;
    enum division sight = sight_of_divided(p, q);
    return 1u << sight | (sight > BY_ZERO ? sights_of_two_destinations(record) : 0);
}

static uint64_t sight(enum decimal seen)
{
    return (uint64_t)1 << seen;
}

/* Where a step stores to: of the four sights that begin with this one, the last of which is p alone. Where there is no
 * q, its bytes are zero and name no place. */
static uint64_t sights_of_destination(const uint8_t *record, const uint8_t *thread, enum decimal to_register)
{
    const uint8_t *destination = operand_at(record, 0);
    uint32_t number = get16(destination + PLEX_OPERAND_VALUE), presence = get32(thread + PLEX_THREAD_PRESENCE);
    bool is_to_p_alone = are_one_place(record, 0, 1) && !are_one_place(record, 0, 2);
    uint64_t seen = is_to_p_alone ? sight(to_register + 3) : 0;
    if (destination[PLEX_OPERAND_KIND] == PLEX_WORD_OPERAND)
        return seen | sight(to_register + 2);
    return seen | sight(presence >> number & 1 ? to_register : to_register + 1);
}

static uint64_t sights_of_packing(const uint8_t *record, const uint8_t *thread, struct source p)
{
    if (p.is_absent)
        return sight(PACK_OF_ABSENT);
    if (p.value > 9999)
        return sight(p.value == 10000 ? PACK_OF_10000 : PACK_OF_LARGER);
    return sight(p.value == 9999 ? PACK_OF_9999 : PACK_OF_SMALLER) |
           sights_of_destination(record, thread, PACK_TO_REGISTER);
}

static uint64_t sights_of_unpacking(const uint8_t *record, const uint8_t *thread, struct source p)
{
    if (p.is_absent)
        return sight(UNPACK_OF_ABSENT);
    if (is_packed(p.value))
        return sight(p.value == 0x9999 ? UNPACK_OF_LARGEST : UNPACK_OF_PACKED) |
               sights_of_destination(record, thread, UNPACK_TO_REGISTER);
    for (uint32_t digit = 0; digit < 4; digit++)
        if ((p.value >> 4 * digit & 0xF) == 10 && is_packed(p.value & ~(0xFu << 4 * digit)))
            return sight(UNPACK_OF_10_ONES + digit);
    return sight(UNPACK_OF_BAD_DIGITS);
}

/* Of packed numbers. */
static uint64_t sights_of_carries(uint32_t p, uint32_t q)
{
    uint64_t seen = 0;
    for (uint32_t digit = 0, carry = 0; digit < 4; digit++) {
        carry = (p >> 4 * digit & 0xF) + (q >> 4 * digit & 0xF) + carry > 9;
        seen |= carry != 0 ? sight(CARRY_FROM_ONES + digit) : 0;
    }
    return seen == 0 ? sight(SUM_WITHOUT_CARRY) : seen;
}

static uint64_t sights_of_sum(const uint8_t *record, const uint8_t *thread, struct source p, struct source q)
{
    bool is_p_packed = is_packed(p.value), is_q_packed = is_packed(q.value), is_to_q = are_one_place(record, 0, 2);
    if (p.is_absent && q.is_absent)
        return 0;
    if (p.is_absent)
        return sight(is_q_packed ? ABSENT_AND_PACKED : ABSENT_AND_BAD_DIGIT);
    if (q.is_absent)
        return sight(is_p_packed ? PACKED_AND_ABSENT : BAD_DIGIT_AND_ABSENT);
    if (!is_p_packed || !is_q_packed)
        return sight(is_q_packed ? BAD_DIGIT_OF_P : is_p_packed ? BAD_DIGIT_OF_Q : BAD_DIGITS_OF_BOTH);
    uint64_t seen = sights_of_carries(p.value, q.value) | sights_of_destination(record, thread, SUM_TO_REGISTER);
    if (unpacked_number(p.value) + unpacked_number(q.value) == 10000)
        seen |= sight(SUM_OF_10000);
    if (is_to_q)
        seen |= sight(are_one_place(record, 1, 2) ? SUM_OF_ITSELF : SUM_TO_Q);
    return seen;
}

uint64_t next_decimal(const struct machine *machine, const uint8_t *state, uint32_t thread)
{
    const uint8_t *bytes = thread_at(state, thread), *record = next_record(machine, bytes);
    if (record == NULL)
        return 0;
    uint32_t opcode = record[PLEX_RECORD_OPCODE];
    if (opcode == PLEX_PACK)
        return sights_of_packing(record, bytes, read_source(state, bytes, record, 1));
    if (opcode == PLEX_UNPACK)
        return sights_of_unpacking(record, bytes, read_source(state, bytes, record, 1));
    if (opcode != PLEX_DECIMAL_ADD)
        return 0;
    return sights_of_sum(record, bytes, read_source(state, bytes, record, 1), read_source(state, bytes, record, 2));
}
