/* What the parts of the header's test share. */
#ifndef HEADER_H
#define HEADER_H

#include "plex.h"

/* Label 0: block 0, entry external, ASSIGN copy shared word 0 from 7, on to 1. Label 1: EXIT. */
enum { RECORDS = 2 };
extern uint8_t image[RECORDS * PLEX_RECORD_SIZE], table[PLEX_TABLE_SIZE], words[PLEX_WORDS_SIZE];
extern uint8_t state[PLEX_STATE_SIZE];

/* Says what does not hold, and makes the test fail. */
void expect(const char *what, int holds);

void put_operand(uint8_t *record, int index, uint8_t kind, uint16_t value);

/* One Run of an image from a fresh machine with the words: what it answers to the last of so many events, an arrival at
 * label 0 and steps of thread 0. */
void run_afresh(const char *what, const uint8_t *records, size_t size, size_t count, uint8_t code, uint8_t detail);

/* Subtraction, division and packed decimal. */
void calculate(void);

#endif
