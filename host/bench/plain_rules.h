/* The rules of the opcodes, for the check and the link. */
#ifndef PLAIN_RULES_H
#define PLAIN_RULES_H

#include "plain_program.h"

/* What an opcode allows in a record's first nine bytes. */
struct opcode_rule {
    uint8_t zero_bits[8]; /* bits that are zero in bytes 0 to 7 */
    uint16_t bound_at_a;  /* what is fixed of the record at label A */
    uint16_t entry_at_a;  /* the entry it must have, in the high byte */
    uint8_t bound_at_b;   /* what is fixed of the record at label B */
    uint8_t operators;    /* bit o: operator o is allowed */
    uint8_t fewest_operands;
    uint8_t further_operands; /* how many more there may be */
};

/* Rule 0 stands for every unknown opcode: no operator suits it. */
extern const struct opcode_rule plain_opcode_rules[];

#endif
