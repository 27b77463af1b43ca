/* What the header says of lending, on the cases of the trials: each buffer lies between pages that
 * nobody may touch, at any alignment, and what is only read cannot be written; a pointer of length
 * 0 is not used; a refused call writes nothing; calls go on side by side in threads and in a signal
 * handler. A byte touched outside a buffer ends the program. Use: lending CASE.. */
#define _DEFAULT_SOURCE

#include "cases.h"

#include <pthread.h>
#include <signal.h>
#include <stdio.h>
#include <stdlib.h>
#include <string.h>
#include <sys/mman.h>
#include <sys/time.h>

enum { PAGE = 4096, ROOM = 16 * PAGE, SIDE_THREADS = 4, SIDE_ROUNDS = 100, HANDLED = 20, PARTS = 6 };

/* The buffers of a call; met is apart, because the walk goes over what Run left. */
struct lent {
    uint8_t *image, *table, *words, *events, *state, *answers;
};

static struct trial trial;
static int failed;

static void expect(const char *what, int holds)
{
    if (!holds) {
        printf("lending: %s: not so\n", what);
        failed = 1;
    }
}

/* ROOM bytes between two pages that nobody may touch. */
static uint8_t *guarded(void)
{
    uint8_t *all = mmap(NULL, ROOM + 2 * PAGE, PROT_NONE, MAP_PRIVATE | MAP_ANONYMOUS, -1, 0);
    if (all == MAP_FAILED || mprotect(all + PAGE, ROOM, PROT_READ | PROT_WRITE) != 0)
        exit(2);
    return all + PAGE;
}

/* A copy of some bytes, so far from the room's start, or at its very end if at is ROOM. */
static uint8_t *placed(uint8_t *room, size_t at, const uint8_t *bytes, size_t size)
{
    uint8_t *place = at == ROOM ? room + ROOM - size : room + at;
    memcpy(place, bytes, size);
    return place;
}

static void protect(uint8_t *room, int protection)
{
    if (mprotect(room, ROOM, protection) != 0)
        exit(2);
}

static uint32_t fresh_and_run(const struct lent *lent)
{
    uint32_t made = plex_fresh(lent->image, trial.image_len, lent->table, PLEX_TABLE_SIZE, lent->words, PLEX_WORDS_SIZE,
                               lent->state, PLEX_STATE_SIZE);
    return made != 0 ? made
                     : plex_run(lent->image, trial.image_len, lent->table, PLEX_TABLE_SIZE, lent->state,
                                PLEX_STATE_SIZE, lent->events, trial.events_len, lent->answers, trial.answers_len);
}

static int right(const struct lent *lent)
{
    return fresh_and_run(lent) == 0 && memcmp(lent->state, trial.state, PLEX_STATE_SIZE) == 0 &&
           memcmp(lent->answers, trial.answers, trial.answers_len) == 0;
}

static void protect_first(uint8_t *rooms[PARTS], int count, int protection)
{
    for (int part = 0; part < count; part++)
        protect(rooms[part], protection);
}

/* The walk has the state in memory that cannot be written. */
static void try_machine(uint8_t *rooms[PARTS], size_t at)
{
    static const uint8_t empty[sizeof trial.answers];
    struct lent lent = {
        placed(rooms[0], at, trial.image, trial.image_len),  placed(rooms[1], at, trial.table, PLEX_TABLE_SIZE),
        placed(rooms[2], at, trial.words, PLEX_WORDS_SIZE),  placed(rooms[3], at, trial.events, trial.events_len),
        placed(rooms[4], at, trial.events, PLEX_STATE_SIZE), placed(rooms[5], at, empty, trial.answers_len)};
    protect_first(rooms, 4, PROT_READ);
    expect("check", plex_check(lent.image, trial.image_len, lent.table, PLEX_TABLE_SIZE) == 0);
    expect("the same at every place", right(&lent));
    protect(rooms[4], PROT_READ);
    uint8_t *met = placed(rooms[5], at, empty, PLEX_MET_SIZE);
    for (uint32_t t = 0; t < PLEX_THREADS; t++)
        expect("walk", PLEX_NUMBER(plex_walk(lent.image, trial.image_len, lent.table, PLEX_TABLE_SIZE, lent.state,
                                             PLEX_STATE_SIZE, t, met, PLEX_MET_SIZE)) == 0 &&
                           met[0] == t);
    protect_first(rooms, 5, PROT_READ | PROT_WRITE);
}

/* The guest behind the case: its labels begin where the case's end. */
static void try_link(uint8_t *rooms[PARTS], size_t at)
{
    uint8_t guest[GUEST_SIZE], moved[GUEST_SIZE];
    size_t size = trial.image_len + sizeof guest;
    make_guest(guest, &trial, 0);
    make_guest(moved, &trial, (uint32_t)(trial.image_len / PLEX_RECORD_SIZE));
    uint8_t *first = placed(rooms[0], at, trial.image, trial.image_len);
    uint8_t *second = placed(rooms[1], at, guest, sizeof guest);
    uint8_t *table = placed(rooms[2], at, trial.table, PLEX_TABLE_SIZE);
    uint8_t *out = placed(rooms[3], at, trial.events, size);
    protect_first(rooms, 3, PROT_READ);
    expect("link", plex_link(first, trial.image_len, second, sizeof guest, table, PLEX_TABLE_SIZE, out, size) == 0);
    expect("the first image", memcmp(out, trial.image, trial.image_len) == 0);
    expect("the second image", memcmp(out + trial.image_len, moved, sizeof moved) == 0);
    protect_first(rooms, 3, PROT_READ | PROT_WRITE);
}

/* The same results at every place. */
static void try_places(uint8_t *rooms[PARTS])
{
    static const size_t places[] = {0, 1, 2, 3, 4, 5, 7, 8, 9, 15, ROOM};
    for (size_t i = 0; i < sizeof places / sizeof places[0]; i++) {
        try_machine(rooms, places[i]);
        if (has_guest(&trial))
            try_link(rooms, places[i]);
    }
}

/* A pointer of length 0, NULL or into a page that nobody may touch; and refused calls, which have
 * nothing that they could write to. */
static void try_empty(uint8_t *room, uint8_t *nowhere)
{
    const uint8_t *image = trial.image, *table = trial.table;
    size_t size = trial.image_len, rows = PLEX_TABLE_SIZE, all = PLEX_STATE_SIZE;
    uint8_t *state = placed(room, 0, trial.state, PLEX_STATE_SIZE), met[PLEX_MET_SIZE];
    uint8_t bad[PLEX_EVENT_SIZE] = {PLEX_CUT + 1};
    expect("image of length 0", PLEX_NUMBER(plex_check(nowhere, 0, table, rows)) == PLEX_BAD_IMAGE_LENGTH);
    expect("table of length 0", PLEX_NUMBER(plex_check(image, size, nowhere, 0)) == PLEX_BAD_TABLE_LENGTH);
    expect("no events", plex_run(image, size, table, rows, state, all, nowhere, 0, nowhere, 0) == 0 &&
                            memcmp(state, trial.state, all) == 0);
    protect(room, PROT_READ);
    expect("state of length 0", PLEX_NUMBER(plex_fresh(image, size, table, rows, trial.words, PLEX_WORDS_SIZE, nowhere,
                                                       0)) == PLEX_BAD_STATE_LENGTH);
    expect("words of length 0",
           PLEX_NUMBER(plex_fresh(image, size, table, rows, nowhere, 0, state, all)) == PLEX_BAD_WORDS_LENGTH);
    expect("answers of length 0", PLEX_NUMBER(plex_run(image, size, table, rows, state, all, trial.events,
                                                       trial.events_len, nowhere, 0)) == PLEX_BAD_ANSWERS_LENGTH);
    expect("bad event", PLEX_NUMBER(plex_run(image, size, table, rows, state, all, bad, sizeof bad, met,
                                             PLEX_ANSWER_SIZE)) == PLEX_BAD_EVENT);
    expect("met of length 0",
           PLEX_NUMBER(plex_walk(image, size, table, rows, state, all, 0, nowhere, 0)) == PLEX_BAD_MET_LENGTH);
    expect("thread 8", PLEX_NUMBER(plex_walk(image, size, table, rows, state, all, PLEX_THREADS, met, sizeof met)) ==
                           PLEX_BAD_WALK_THREAD);
    protect(room, PROT_READ | PROT_WRITE);
}

static uint32_t link_number(const uint8_t *first, size_t first_len, const uint8_t *second, size_t second_len,
                            uint8_t *out, size_t out_len)
{
    return PLEX_NUMBER(plex_link(first, first_len, second, second_len, trial.table, sizeof trial.table, out, out_len));
}

/* The same of links, by the numbers that the check has too. */
static void try_bad_links(uint8_t *room, uint8_t *nowhere)
{
    uint8_t guest[GUEST_SIZE], bad_guest[GUEST_SIZE], bad_table[PLEX_TABLE_SIZE];
    const uint8_t *image = trial.image;
    size_t size = trial.image_len, both = size + GUEST_SIZE;
    make_guest(guest, &trial, 0);
    memcpy(bad_guest, guest, sizeof guest);
    bad_guest[PLEX_RECORD_OPCODE] = 0;
    memcpy(bad_table, trial.table, sizeof bad_table);
    bad_table[PLEX_ROW_THREAD] = PLEX_THREADS;
    protect(room, PROT_READ);
    expect("no first image", link_number(nowhere, 0, guest, GUEST_SIZE, room, GUEST_SIZE) == PLEX_BAD_IMAGE_LENGTH);
    expect("no second image", link_number(image, size, nowhere, 0, room, size) == PLEX_BAD_IMAGE_LENGTH);
    expect("no table",
           PLEX_NUMBER(plex_link(image, size, guest, GUEST_SIZE, nowhere, 0, room, both)) == PLEX_BAD_TABLE_LENGTH);
    expect("thread 8 in the table", PLEX_NUMBER(plex_link(image, size, guest, GUEST_SIZE, bad_table, sizeof bad_table,
                                                          room, both)) == PLEX_BAD_TABLE_FIELD);
    expect("opcode 0 in the first image",
           link_number(bad_guest, GUEST_SIZE, image, size, room, both) == PLEX_BAD_RECORD);
    expect("opcode 0 in the second image",
           link_number(image, size, bad_guest, GUEST_SIZE, room, both) == PLEX_BAD_RECORD);
    protect(room, PROT_READ | PROT_WRITE);
}

/* And by their own numbers. */
static void try_refused_links(uint8_t *room, uint8_t *nowhere)
{
    static uint8_t full[sizeof trial.image];
    uint8_t guest[GUEST_SIZE], same[GUEST_SIZE];
    const uint8_t *image = trial.image;
    size_t size = trial.image_len, both = size + GUEST_SIZE;
    make_guest(guest, &trial, 0);
    make_guest(same, &trial, 0);
    for (uint8_t *record = full; record < full + sizeof full; record += PLEX_RECORD_SIZE) {
        record[PLEX_RECORD_OPCODE] = PLEX_EXIT;
        record[PLEX_RECORD_BLOCK] = guest[PLEX_RECORD_BLOCK] ^ 1;
    }
    protect(room, PROT_READ);
    expect("a block of both",
           link_number(guest, GUEST_SIZE, same, GUEST_SIZE, room, 2 * GUEST_SIZE) == PLEX_SHARED_BLOCK);
    expect("too many records",
           link_number(full, sizeof full, guest, GUEST_SIZE, room, sizeof full + GUEST_SIZE) == PLEX_TOO_MANY_RECORDS);
    expect("a short output", link_number(image, size, guest, GUEST_SIZE, room, both - 1) == PLEX_BAD_OUTPUT_LENGTH);
    expect("no output", link_number(image, size, guest, GUEST_SIZE, nowhere, 0) == PLEX_BAD_OUTPUT_LENGTH);
    protect(room, PROT_READ | PROT_WRITE);
}

/* A host of format 2 lends a table of 32 bytes: every call refuses, and touches no byte behind it. */
static void try_former_table(uint8_t *rooms[PARTS])
{
    enum { FORMER_SIZE = 32 };
    const uint8_t *image = trial.image, *table = placed(rooms[0], ROOM, trial.table, FORMER_SIZE);
    size_t size = trial.image_len, all = PLEX_STATE_SIZE;
    uint8_t *state = rooms[4], *out = rooms[5];
    protect_first(rooms, PARTS, PROT_READ);
    uint32_t results[] = {
        plex_check(image, size, table, FORMER_SIZE),
        plex_fresh(image, size, table, FORMER_SIZE, trial.words, PLEX_WORDS_SIZE, state, all),
        plex_run(image, size, table, FORMER_SIZE, state, all, trial.events, trial.events_len, out, trial.answers_len),
        plex_walk(image, size, table, FORMER_SIZE, state, all, 0, out, PLEX_MET_SIZE),
        plex_link(image, size, image, size, table, FORMER_SIZE, out, size)};
    for (size_t i = 0; i < sizeof results / sizeof results[0]; i++)
        expect("table of 32 bytes", PLEX_NUMBER(results[i]) == PLEX_BAD_TABLE_LENGTH && PLEX_PLACE(results[i]) == 0);
    protect_first(rooms, PARTS, PROT_READ | PROT_WRITE);
}

static void *side_by_side(void *wrong)
{
    uint8_t state[PLEX_STATE_SIZE], answers[sizeof trial.answers];
    struct lent own = {trial.image, trial.table, trial.words, trial.events, state, answers};
    for (int i = 0; i < SIDE_ROUNDS; i++)
        *(int *)wrong |= !right(&own);
    return NULL;
}

static volatile sig_atomic_t handled, wrong_in_handler;

static void on_alarm(int number)
{
    static uint8_t state[PLEX_STATE_SIZE], answers[sizeof trial.answers];
    struct lent own = {trial.image, trial.table, trial.words, trial.events, state, answers};
    (void)number;
    wrong_in_handler |= !right(&own);
    handled++;
}

/* Calls in threads, one image lent to all; then calls interrupted by a handler that makes calls. */
static void try_beside(void)
{
    pthread_t threads[SIDE_THREADS];
    int wrong[SIDE_THREADS] = {0}, here = 0;
    for (int i = 0; i < SIDE_THREADS; i++)
        if (pthread_create(&threads[i], NULL, side_by_side, &wrong[i]) != 0)
            exit(2);
    for (int i = 0; i < SIDE_THREADS; i++) {
        pthread_join(threads[i], NULL);
        expect("side by side", wrong[i] == 0);
    }
    struct sigaction action = {.sa_handler = on_alarm};
    struct itimerval often = {{0, 1000}, {0, 1000}}, never = {{0, 0}, {0, 0}};
    sigaction(SIGALRM, &action, NULL);
    for (setitimer(ITIMER_REAL, &often, NULL); handled < HANDLED;)
        side_by_side(&here);
    setitimer(ITIMER_REAL, &never, NULL);
    expect("interrupted", here == 0);
    expect("in a signal handler", wrong_in_handler == 0);
}

int main(int count, char **names)
{
    uint8_t *rooms[PARTS];
    int linked = 0;
    for (int part = 0; part < PARTS; part++)
        rooms[part] = guarded();
    for (int i = 1; i < count; i++) {
        load_trial(&trial, names[i]);
        linked += has_guest(&trial);
        try_places(rooms);
        try_former_table(rooms);
        for (int at_edge = 0; at_edge <= 1; at_edge++) {
            uint8_t *nowhere = at_edge ? rooms[0] - 1 : NULL;
            try_empty(rooms[4], nowhere);
            if (!has_guest(&trial))
                continue;
            try_bad_links(rooms[4], nowhere);
            try_refused_links(rooms[4], nowhere);
        }
    }
    try_beside();
    printf("lending: %d cases, %d of them linked%s\n", count - 1, linked, failed ? ", NOT as the header says" : "");
    return failed || linked == 0;
}
