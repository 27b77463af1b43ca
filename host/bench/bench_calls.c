#include "bench_calls.h"
#include "plain.h"

#include <string.h>

enum { PAGE = 4096 };
_Alignas(PAGE) struct lent work;
_Alignas(PAGE) struct altered by_plex;
_Alignas(PAGE) struct altered by_plain;

#define IMAGE work.image, work.image_len
#define SECOND_IMAGE work.second_image, work.image_len
#define TABLE work.table, sizeof work.table
#define WORDS work.words, sizeof work.words
#define STATE(engine) engine.state, sizeof engine.state
#define EVENTS work.events, PLEX_EVENT_SIZE *work.event_count
#define ANSWERS(engine) engine.answers, PLEX_ANSWER_SIZE *work.event_count
#define MET(engine) engine.met, sizeof engine.met
#define LINKED(engine) engine.linked, 2 * work.image_len

uint32_t plex_check_call(void)
{
    return plex_check(IMAGE, TABLE);
}

uint32_t plain_check_call(void)
{
    return plain_check(IMAGE, TABLE);
}

/* Steps on to the image after the one that is returned, and from the last to the first. */
static const uint8_t *image_in_turn(size_t *next)
{
    const uint8_t *image = work.images[*next];
    *next = *next + 1 < work.images_count ? *next + 1 : 0;
    return image;
}

uint32_t plex_check_in_turn_call(void)
{
    static size_t next;
    return plex_check(image_in_turn(&next), work.image_len, TABLE);
}

uint32_t plain_check_in_turn_call(void)
{
    static size_t next;
    return plain_check(image_in_turn(&next), work.image_len, TABLE);
}

uint32_t plex_fresh_call(void)
{
    return plex_fresh(IMAGE, TABLE, WORDS, STATE(by_plex));
}

uint32_t plain_fresh_call(void)
{
    return plain_fresh(IMAGE, TABLE, WORDS, STATE(by_plain));
}

uint32_t plex_run_call(void)
{
    return plex_run(IMAGE, TABLE, STATE(by_plex), EVENTS, ANSWERS(by_plex));
}

uint32_t plain_run_call(void)
{
    return plain_run(IMAGE, TABLE, STATE(by_plain), EVENTS, ANSWERS(by_plain));
}

uint32_t plex_walk_call(void)
{
    return plex_walk(IMAGE, TABLE, STATE(by_plex), 0, MET(by_plex));
}

uint32_t plain_walk_call(void)
{
    return plain_walk(IMAGE, TABLE, STATE(by_plain), 0, MET(by_plain));
}

uint32_t plex_link_call(void)
{
    return plex_link(IMAGE, SECOND_IMAGE, TABLE, LINKED(by_plex));
}

uint32_t plain_link_call(void)
{
    return plain_link(IMAGE, SECOND_IMAGE, TABLE, LINKED(by_plain));
}

int bench_same_bytes(void)
{
    return memcmp(&by_plex, &by_plain, sizeof by_plex) == 0;
}

int bench_expected_traps(void)
{
    size_t traps = 0;
    for (size_t i = 0; i < work.event_count; i++)
        traps += by_plain.answers[PLEX_ANSWER_SIZE * i + PLEX_ANSWER_CODE] == PLEX_TRAPPED;
    return traps == work.trap_count;
}
