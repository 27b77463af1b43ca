/* How much stack the calls need: each is made on a thread whose stack was filled with one byte
 * beforehand, and the bytes that another value stands in afterwards were used. The walk goes along
 * a ring of all eight threads, the longest that there is. Use: stack CASE.. */
#define _POSIX_C_SOURCE 200809L

#include "build.h"
#include "cases.h"

#include <pthread.h>
#include <stdio.h>
#include <stdlib.h>
#include <string.h>

enum { SPACE = 1024 * 1024, FILLED = 0xA5, RING_EVENTS = 3 * PLEX_THREADS };

static struct trial trial;
static uint8_t state[PLEX_STATE_SIZE], answers[PLEX_EVENTS_MAX * PLEX_ANSWER_SIZE], met[PLEX_MET_SIZE];
static uint8_t guest[GUEST_SIZE], linked[sizeof trial.image];

static void *nothing(void *result)
{
    *(uint32_t *)result = 0;
    return NULL;
}

/* 0 if the library has the header's version. */
static void *version(void *result)
{
    *(uint32_t *)result = plex_version() ^ PLEX_VERSION_NUMBER;
    return NULL;
}

static void *check(void *result)
{
    *(uint32_t *)result = plex_check(trial.image, trial.image_len, trial.table, sizeof trial.table);
    return NULL;
}

static void *fresh(void *result)
{
    *(uint32_t *)result = plex_fresh(trial.image, trial.image_len, trial.table, sizeof trial.table, trial.words,
                                     sizeof trial.words, state, sizeof state);
    return NULL;
}

static void *run(void *result)
{
    *(uint32_t *)result = plex_run(trial.image, trial.image_len, trial.table, sizeof trial.table, state, sizeof state,
                                   trial.events, trial.events_len, answers, trial.answers_len);
    return NULL;
}

static void *link_guest(void *result)
{
    *(uint32_t *)result = plex_link(trial.image, trial.image_len, guest, sizeof guest, trial.table, sizeof trial.table,
                                    linked, trial.image_len + sizeof guest);
    return NULL;
}

/* 0 if the walk met all threads in a ring. */
static void *walk(void *result)
{
    *(uint32_t *)result = plex_walk(trial.image, trial.image_len, trial.table, sizeof trial.table, state, sizeof state,
                                    0, met, sizeof met) ^
                          (PLEX_RING + PLEX_THREADS);
    return NULL;
}

/* The stack that a thread with this work used; the thread's own part is in it. */
static size_t used(void *(*work)(void *))
{
    static _Alignas(4096) uint8_t stack[SPACE];
    memset(stack, FILLED, sizeof stack);
    pthread_attr_t attributes;
    pthread_t thread;
    uint32_t result = 1;
    pthread_attr_init(&attributes);
    if (pthread_attr_setstack(&attributes, stack, sizeof stack) != 0 ||
        pthread_create(&thread, &attributes, work, &result) != 0 || pthread_join(thread, NULL) != 0 || result != 0) {
        fprintf(stderr, "stack: a call was not carried out, result %u\n", result);
        exit(2);
    }
    pthread_attr_destroy(&attributes);
    size_t first = 0;
    while (first < sizeof stack && stack[first] == FILLED)
        first++;
    return sizeof stack - first;
}

/* Block t is thread t's and has a lock of its own, and its guest calls block t + 1: once all have
 * started, all wait. */
static void make_ring(void)
{
    memset(&trial, 0, sizeof trial);
    put_lone_rows(trial.table);
    for (uint32_t t = 0; t < PLEX_THREADS; t++) {
        uint32_t first = CALLER_RECORDS * t, next = CALLER_RECORDS * ((t + 1) % PLEX_THREADS);
        put_caller(trial.image + PLEX_RECORD_SIZE * first, t, first, next + CALLED);
        put_row(trial.table, t, t, PLEX_CMX, t);
        put_arrival(trial.events + PLEX_EVENT_SIZE * t, first, NULL, 0);
        put_step(trial.events + PLEX_EVENT_SIZE * (PLEX_THREADS + t), t);
        put_step(trial.events + PLEX_EVENT_SIZE * (2 * PLEX_THREADS + t), t);
    }
    trial.image_len = PLEX_THREADS * CALLER_RECORDS * PLEX_RECORD_SIZE;
    trial.events_len = RING_EVENTS * PLEX_EVENT_SIZE;
    trial.answers_len = RING_EVENTS * PLEX_ANSWER_SIZE;
}

static struct {
    const char *name;
    void *(*work)(void *);
    size_t most;
} calls[] = {{"version", version, 0}, {"check", check, 0},     {"fresh", fresh, 0},
             {"run", run, 0},         {"link", link_guest, 0}, {"walk", walk, 0}};

/* The first so many of the calls. */
static void measure(size_t count)
{
    size_t thread = used(nothing);
    if (has_guest(&trial))
        make_guest(guest, &trial, 0);
    for (size_t i = 0; i < count; i++) {
        size_t all = used(calls[i].work), own = all > thread ? all - thread : 0;
        calls[i].most = own > calls[i].most ? own : calls[i].most;
    }
}

int main(int count, char **names)
{
    if (count < 2) {
        fprintf(stderr, "stack: CASE..\n");
        return 2;
    }
    int linked = 0;
    for (int i = 1; i < count; i++) {
        load_trial(&trial, names[i]);
        linked += has_guest(&trial);
        measure(has_guest(&trial) ? 5 : 4);
    }
    make_ring();
    measure(6);
    int failed = linked == 0;
    for (size_t i = 0; i < sizeof calls / sizeof calls[0]; i++) {
        printf("stack: %s needs at most %zu bytes\n", calls[i].name, calls[i].most);
        failed |= calls[i].most > PLEX_STACK_MAX;
    }
    printf("stack: %d cases, %d of them linked\n", count - 1, linked);
    return failed;
}
