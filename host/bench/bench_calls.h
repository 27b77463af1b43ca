/* What a row lends, and the calls of both engines on it. */
#ifndef BENCH_CALLS_H
#define BENCH_CALLS_H

#include "plex.h"

enum { IMAGES_MAX = 64 };

/* The same to both engines, but for what they alter. */
struct lent {
    uint8_t image[PLEX_RECORD_SIZE * PLEX_RECORDS_MAX];
    uint8_t second_image[PLEX_RECORD_SIZE * PLEX_RECORDS_MAX];
    size_t image_len; /* of either */
    uint8_t table[PLEX_TABLE_SIZE];
    uint8_t words[PLEX_WORDS_SIZE];
    uint8_t events[PLEX_EVENT_SIZE * PLEX_EVENTS_MAX];
    size_t event_count;
    size_t trap_count;                                               /* the jobs that the events end by a trap */
    uint8_t images[IMAGES_MAX][PLEX_RECORD_SIZE * PLEX_RECORDS_MAX]; /* that are checked in turn */
    size_t images_count;
};

/* What an engine alters. */
struct altered {
    uint8_t state[PLEX_STATE_SIZE];
    uint8_t answers[PLEX_ANSWER_SIZE * PLEX_EVENTS_MAX];
    uint8_t met[PLEX_MET_SIZE];
    uint8_t linked[PLEX_RECORD_SIZE * PLEX_RECORDS_MAX];
};

/* Of the row in hand. What the engines alter begins a page: so both have every byte at the same place of one. */
extern struct lent work;
extern struct altered by_plex, by_plain;

/* The walk goes from thread 0. Each call of a check in turn takes the engine's next image. */
uint32_t plex_check_call(void);
uint32_t plain_check_call(void);
uint32_t plex_check_in_turn_call(void);
uint32_t plain_check_in_turn_call(void);
uint32_t plex_fresh_call(void);
uint32_t plain_fresh_call(void);
uint32_t plex_run_call(void);
uint32_t plain_run_call(void);
uint32_t plex_walk_call(void);
uint32_t plain_walk_call(void);
uint32_t plex_link_call(void);
uint32_t plain_link_call(void);

/* Whether both engines left the same bytes. */
int bench_same_bytes(void);

/* Whether the last events that the plain engine carried out have ended as many jobs by a trap as they should. */
int bench_expected_traps(void);

#endif
