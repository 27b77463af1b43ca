/* Changed and damaged bytes, the same in every run. */
#ifndef DAMAGE_H
#define DAMAGE_H

#include "plex.h"

/* A number below the limit, from a fixed sequence. */
uint32_t below(uint32_t limit);

/* Makes half of the buffered SENDs of a checked image SENDs JOBTREE, which have the same fields. */
void make_tree_sends(uint8_t *image, uint32_t records);

/* A calculation is a DIVIDE, PACK, UNPACK or DECIMAL ADD; their opcodes follow each other. */
enum { FIRST_CALCULATION = PLEX_DIVIDE, LAST_CALCULATION = PLEX_DECIMAL_ADD };

/* The opcode of any of them. */
uint32_t any_calculation(void);

/* Makes a SKIP or GOTO a calculation, which has the same labels. At times a source is a destination too; of a division
 * also both: the quotient's p and the remainder's q, or turned. */
void make_calculation(uint8_t *record);

/* Makes most of the SKIPs and GOTOs of a checked image calculations. */
void make_calculations(uint8_t *image, uint32_t records);

/* A number at a limit of packed decimal, or four digits of four bits, few of which are above 9. */
uint32_t decimal_number(void);

/* Of two records or more: a label behind label 0 whose statement has this opcode, or 0 if there is none. */
uint32_t find_statement(const uint8_t *image, uint32_t records, uint32_t opcode);

/* What can be wrong with a calculation, and, from CALCULATION_FAULTS on, with a division alone. */
enum calculation_fault {
    NUMBER_FOR_DESTINATION,
    OPERAND_TOO_FEW,
    OPERAND_TOO_MANY,
    OPERATOR_GIVEN,
    LABEL_A_ELSEWHERE,
    LABEL_A_BEYOND,
    LABEL_B_GIVEN,
    CALCULATION_FAULTS,
    NUMBER_FOR_REMAINDER = CALCULATION_FAULTS,
    EQUAL_DESTINATIONS,
    DIVISION_FAULTS
};

/* The faults of a calculation with this opcode are those below this number. */
uint32_t faults_of(uint32_t opcode);

/* Breaks one rule of the calculation at a label above 0 of a checked image, and no other. The record before it is in
 * another block. */
void break_calculation(uint8_t *image, uint32_t records, uint32_t label, enum calculation_fault fault);

/* Sets a byte to a number at or beside a limit, or flips a bit of it. */
void damage(uint8_t *bytes, size_t size);

/* Makes a block table whose blocks share from one to all of the locks. */
void make_table(uint8_t *table);

/* Damages a byte of a block table, or makes a block's lock the highest or one too high: half of these
 * times the last block's. */
void damage_table(uint8_t *table);

/* Damages one of so many records of an image, half of the time near its begin. */
void damage_record(uint8_t *image, uint32_t records);

#endif
