/* The same bytes lent to the library and to the plain engine, and what each of them leaves. */
#ifndef PLAIN_BOTH_H
#define PLAIN_BOTH_H

#include "plain_states.h"
#include "plex.h"

enum { MOST_EVENTS = 64 };

/* What is lent to both engines, and how many calls returned or left something else. */
struct both {
    struct machine machine;
    uint32_t records;
    const uint8_t *words, *events;
    uint32_t event_count, differences;
};

/* What an engine alters. */
struct altered {
    uint8_t state[PLEX_STATE_SIZE], answers[MOST_EVENTS * PLEX_ANSWER_SIZE], met[PLEX_MET_SIZE];
};
extern struct altered by_plex, by_plain;

/* Each makes a call of both engines and returns what the library does; a line says where they differ. */
uint32_t fresh_both(struct both *both);
uint32_t run_both(struct both *both);
uint32_t walk_both(struct both *both, uint32_t thread);

#endif
