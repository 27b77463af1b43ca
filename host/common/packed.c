#include "packed.h"

bool reads_packed(const uint8_t *record)
{
    uint32_t opcode = record[PLEX_RECORD_OPCODE];
    return opcode == PLEX_UNPACK || opcode == PLEX_DECIMAL_ADD;
}

static bool stores_packed(const uint8_t *record)
{
    uint32_t opcode = record[PLEX_RECORD_OPCODE];
    return opcode == PLEX_PACK || opcode == PLEX_DECIMAL_ADD;
}

static bool is_packed(uint32_t value)
{
    while (value != 0 && (value & 0xF) <= 9)
        value >>= 4;
    return value == 0;
}

void add_packed(struct line *line, uint32_t value)
{
    add(line, is_packed(value) ? "packed %04x" : "(not packed: 0x%04x)", value);
}

/* The value that an operand, of which the first is the destination, has in a state. */
static void add_value(struct line *line, const uint8_t *record, uint32_t index, uint32_t thread, const uint8_t *state)
{
    const uint8_t *operand = operand_at(record, index), *job = thread_at(state, thread);
    uint32_t kind = operand[PLEX_OPERAND_KIND], value = get16(operand + PLEX_OPERAND_VALUE);
    if (kind == PLEX_REGISTER_OPERAND && !(get32(job + PLEX_THREAD_PRESENCE) >> value & 1)) {
        add(line, "absent");
        return;
    }
    if (kind == PLEX_REGISTER_OPERAND)
        value = get16(job + PLEX_THREAD_VALUES + 2 * value);
    else if (kind == PLEX_WORD_OPERAND)
        value = get16(word_at(state, record[PLEX_RECORD_BLOCK], value));
    if (index == 0 ? stores_packed(record) : reads_packed(record))
        add_packed(line, value);
    else
        add(line, "%u", value);
}

void add_decimal_step(struct line *line, const uint8_t *image, uint32_t thread, const uint8_t *answer,
                      const uint8_t *before, const uint8_t *after)
{
    bool has_moved_on = answer[PLEX_ANSWER_CODE] == PLEX_MOVED_ON;
    if (!has_moved_on && answer[PLEX_ANSWER_CODE] != PLEX_TRAPPED)
        return;
    const uint8_t *record = record_at(image, get16(thread_at(before, thread) + PLEX_THREAD_LABEL));
    if (!reads_packed(record) && !stores_packed(record))
        return;
    for (uint32_t i = 1; i < record[PLEX_RECORD_COUNT]; i++) {
        add(line, i == 1 ? "read " : ", ");
        add_value(line, record, i, thread, before);
    }
    if (has_moved_on) {
        add(line, ", stored ");
        add_value(line, record, 0, thread, after);
    }
}
