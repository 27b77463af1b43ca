/* The cases of the trials: what is lent, and what a fresh machine and one Run leave. */
#ifndef CASES_H
#define CASES_H

#include "plex.h"

#include <stdbool.h>

struct trial {
    uint8_t image[PLEX_RECORDS_MAX * PLEX_RECORD_SIZE], table[PLEX_TABLE_SIZE], words[PLEX_WORDS_SIZE];
    uint8_t events[PLEX_EVENTS_MAX * PLEX_EVENT_SIZE];
    uint8_t state[PLEX_STATE_SIZE], answers[PLEX_EVENTS_MAX * PLEX_ANSWER_SIZE];
    size_t image_len, events_len, answers_len;
};

/* Reads NAME.image, NAME.table and so on, or ends the program with status 2. */
void load_trial(struct trial *trial, const char *name);

/* Three records of a block, with labels from the given one on: CALL of entry external, the EXIT that
 * it returns to, and a RETURN of entry direct, for a CALL to go to. */
enum { CALLED = 2, CALLER_RECORDS = 3 };
void put_caller(uint8_t *image, uint32_t block, uint32_t first_label, uint32_t called);

/* A guest to be linked with the case, in the first block that the case leaves free: its block calls
 * itself. There is none if the case names every block, or has no room for more records. */
enum { GUEST_SIZE = CALLER_RECORDS * PLEX_RECORD_SIZE };
bool has_guest(const struct trial *trial);
void make_guest(uint8_t *image, const struct trial *trial, uint32_t first_label);

#endif
