/* States of a machine: what can be seen in them, and how one of their parts is damaged. */
#ifndef PLAIN_STATES_H
#define PLAIN_STATES_H

#include <stdbool.h>
#include <stdint.h>

/* The image and the table that a state belongs to, both accepted by the check. */
struct machine {
    const uint8_t *image, *table;
};

/* Where a well-formed state is damaged: in what a thread holds, signals or locks, or anywhere. */
enum damaged_part { HELD_SIGNALS, LOCK_SETS, ANY_BYTES, DAMAGED_PARTS };

/* Damages a part, which may stay as it was, and says which. */
enum damaged_part damage_state(const struct machine *machine, uint8_t *state);

/* Whether a job is in two blocks that have the same lock: the one it is at and one that it returns to. */
bool is_job_twice_in_group(const struct machine *machine, const uint8_t *state);

#endif
