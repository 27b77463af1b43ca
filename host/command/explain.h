/* Which rule a part of refused bytes seems to break. The library alone decides what is refused:
 * these only look for words, and leave the line empty where they find none. */
#ifndef EXPLAIN_H
#define EXPLAIN_H

#include "words.h"

#include <stdbool.h>

void explain_row(struct line *why, const uint8_t *table, uint32_t block);

void explain_record(struct line *why, const uint8_t *image, uint32_t records, uint32_t label);

/* Two images, each of which keeps the rules. */
void explain_link(struct line *why, const uint8_t *first, uint32_t first_records, const uint8_t *second,
                  uint32_t second_records);

void explain_event(struct line *why, const uint8_t *image, uint32_t records, const uint8_t *event);

void explain_state(struct line *why, const uint8_t *image, uint32_t records, const uint8_t *table,
                   const uint8_t *state);

/* The same of a state whose image and table are not known: what they would tell is left out. The library tests no
 * state without them, so plex upgrade goes by this. */
void explain_state_alone(struct line *why, const uint8_t *state);

/* The count and the values of a signal or an arrival. */
void explain_values(struct line *why, const uint8_t *signal);

bool is_zero(const uint8_t *part, size_t size);

#endif
