/* Packed numbers as words for a person: by their digits. */
#ifndef PACKED_H
#define PACKED_H

#include "words.h"

#include <stdbool.h>

/* Whether the record's statement takes its sources for packed numbers. */
bool reads_packed(const uint8_t *record);

/* As "packed 0042"; a value with a digit above 9 as "(not packed: 0x12a4)". */
void add_packed(struct line *line, uint32_t value);

/* What a step of the thread has read and, unless it trapped, stored, if its statement was PACK, UNPACK or DECIMAL ADD:
 * as "read packed 0042, packed 0009, stored packed 0051"; of any other event nothing. The image is one that is
 * accepted, and the states are those before and after the event. */
void add_decimal_step(struct line *line, const uint8_t *image, uint32_t thread, const uint8_t *answer,
                      const uint8_t *before, const uint8_t *after);

#endif
