#include "plain_both.h"
#include "plain.h"

#include <stdio.h>
#include <string.h>

struct altered by_plex, by_plain;

#define IMAGE both->machine.image, PLEX_RECORD_SIZE * both->records
#define TABLE both->machine.table, PLEX_TABLE_SIZE
#define WORDS both->words, PLEX_WORDS_SIZE
#define STATE(engine) engine.state, sizeof engine.state
#define EVENTS both->events, PLEX_EVENT_SIZE * both->event_count
#define ANSWERS(engine) engine.answers, PLEX_ANSWER_SIZE * both->event_count
#define MET(engine) engine.met, sizeof engine.met

static uint32_t compare(struct both *both, const char *call, uint32_t of_plex, uint32_t of_plain)
{
    if (of_plex == of_plain && memcmp(&by_plex, &by_plain, sizeof by_plex) == 0)
        return of_plex;
    both->differences++;
    printf("plain: %s: number %u, expected %u, or other bytes\n", call, PLEX_NUMBER(of_plain), PLEX_NUMBER(of_plex));
    return of_plex;
}

uint32_t fresh_both(struct both *both)
{
    memset(&by_plex, 7, sizeof by_plex);
    memset(&by_plain, 7, sizeof by_plain);
    return compare(both, "fresh", plex_fresh(IMAGE, TABLE, WORDS, STATE(by_plex)),
                   plain_fresh(IMAGE, TABLE, WORDS, STATE(by_plain)));
}

uint32_t run_both(struct both *both)
{
    return compare(both, "run", plex_run(IMAGE, TABLE, STATE(by_plex), EVENTS, ANSWERS(by_plex)),
                   plain_run(IMAGE, TABLE, STATE(by_plain), EVENTS, ANSWERS(by_plain)));
}

uint32_t walk_both(struct both *both, uint32_t thread)
{
    return compare(both, "walk", plex_walk(IMAGE, TABLE, STATE(by_plex), thread, MET(by_plex)),
                   plain_walk(IMAGE, TABLE, STATE(by_plain), thread, MET(by_plain)));
}
