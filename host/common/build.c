#include "build.h"

#include <string.h>

void put_statement(uint8_t *record, const struct statement *statement)
{
    memset(record, 0, PLEX_RECORD_SIZE);
    record[PLEX_RECORD_OPCODE] = statement->opcode;
    record[PLEX_RECORD_BLOCK] = statement->block;
    record[PLEX_RECORD_ENTRY] = statement->entry;
    record[PLEX_RECORD_OPERATOR] = statement->operator;
    put16(record + PLEX_RECORD_A, statement->a);
    put16(record + PLEX_RECORD_B, statement->b);
    record[PLEX_RECORD_COUNT] = statement->count;
    uint8_t *operand = record + PLEX_RECORD_OPERANDS;
    for (uint32_t i = 0; i < statement->count; i++, operand += PLEX_OPERAND_SIZE) {
        operand[PLEX_OPERAND_KIND] = statement->operands[i].kind;
        put16(operand + PLEX_OPERAND_VALUE, statement->operands[i].value);
    }
}

void put_statements(uint8_t *image, const struct statement *statements, uint32_t count)
{
    for (uint32_t label = 0; label < count; label++)
        put_statement(image + PLEX_RECORD_SIZE * label, &statements[label]);
}

void put_row(uint8_t *table, uint32_t block, uint32_t thread, uint32_t kind, uint32_t lock)
{
    uint8_t *row = table + PLEX_ROW_SIZE * block;
    row[PLEX_ROW_THREAD] = (uint8_t)thread;
    row[PLEX_ROW_KIND] = (uint8_t)kind;
    row[PLEX_ROW_LOCK] = (uint8_t)lock;
}

void put_lone_rows(uint8_t *table)
{
    for (uint32_t block = 0; block < PLEX_BLOCKS; block++)
        put_row(table, block, 0, PLEX_FD, block);
}

void put_arrival(uint8_t *event, uint32_t label, const uint16_t *values, uint8_t count)
{
    uint8_t *signal = event + PLEX_EVENT_SIGNAL;
    memset(event, 0, PLEX_EVENT_SIZE);
    event[PLEX_EVENT_KIND] = PLEX_ARRIVAL;
    put16(signal + PLEX_SIGNAL_LABEL, label);
    signal[PLEX_SIGNAL_COUNT] = count;
    for (uint32_t i = 0; i < count; i++)
        put16(signal + PLEX_SIGNAL_VALUES + 2 * i, values[i]);
}

static void put_thread_event(uint8_t *event, uint8_t kind, uint32_t thread)
{
    memset(event, 0, PLEX_EVENT_SIZE);
    event[PLEX_EVENT_KIND] = kind;
    event[PLEX_EVENT_THREAD] = (uint8_t)thread;
}

void put_step(uint8_t *event, uint32_t thread)
{
    put_thread_event(event, PLEX_STEP, thread);
}

void put_cut(uint8_t *event, uint32_t thread)
{
    put_thread_event(event, PLEX_CUT, thread);
}
