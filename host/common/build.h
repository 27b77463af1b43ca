/* Records, rows of the block table and events written as bytes, for hosts that make their own. */
#ifndef BUILD_H
#define BUILD_H

#include "fields.h"

struct operand {
    uint8_t kind;
    uint16_t value;
};

#define NUMBER(n)                                                                                                      \
    {                                                                                                                  \
        PLEX_NUMBER_OPERAND, n                                                                                         \
    }
#define REGISTER(r)                                                                                                    \
    {                                                                                                                  \
        PLEX_REGISTER_OPERAND, r                                                                                       \
    }
#define WORD(w)                                                                                                        \
    {                                                                                                                  \
        PLEX_WORD_OPERAND, w                                                                                           \
    }

/* A record in plain values; the fields that its opcode does not use are left zero. */
struct statement {
    uint8_t block, entry, opcode, operator;
    uint16_t a, b;
    uint8_t count;
    struct operand operands[PLEX_REGISTERS];
};

/* Each writes every byte of its record, its records, its row or its event. */
void put_statement(uint8_t *record, const struct statement *statement);
void put_statements(uint8_t *image, const struct statement *statements, uint32_t count);
void put_row(uint8_t *table, uint32_t block, uint32_t thread, uint32_t kind, uint32_t lock);
void put_arrival(uint8_t *event, uint32_t label, const uint16_t *values, uint8_t count);
void put_step(uint8_t *event, uint32_t thread);
void put_cut(uint8_t *event, uint32_t thread);

/* Every row: FD, on thread 0, and with the lock of the block's own number, so that no two blocks are
 * a group. */
void put_lone_rows(uint8_t *table);

#endif
