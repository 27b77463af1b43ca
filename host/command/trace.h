/* What a run prints: a line for each event, and the summary. */
#ifndef TRACE_H
#define TRACE_H

#include "groups.h"

/* How often each code and each trap was answered, and how many held signals EXIT has lost. */
struct tally {
    uint64_t events, calls, codes[256], traps[256], lost;
};

void count_answer(struct tally *tally, const uint8_t *answer);

/* An event with its answer, and the states around it. */
struct traced {
    uint64_t index;
    const uint8_t *event, *answer, *before, *after;
};

/* The line of an event. */
void print_traced(const struct traced *traced, const uint8_t *image, const struct groups *groups);

void print_summary(const struct tally *tally, const uint8_t *state);

#endif
