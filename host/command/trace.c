#include "trace.h"
#include "command.h"
#include "names.h"
#include "packed.h"

#include <inttypes.h>

void count_answer(struct tally *tally, const uint8_t *answer)
{
    tally->events++;
    tally->codes[answer[PLEX_ANSWER_CODE]]++;
    if (answer[PLEX_ANSWER_CODE] == PLEX_TRAPPED)
        tally->traps[answer[PLEX_ANSWER_DETAIL]]++;
    if (answer[PLEX_ANSWER_CODE] == PLEX_EXITED)
        tally->lost += answer[PLEX_ANSWER_DETAIL];
}

static enum colour colour_of(const uint8_t *answer)
{
    switch (answer[PLEX_ANSWER_CODE]) {
    case PLEX_ARRIVED:
    case PLEX_STARTED:
        return GREEN;
    case PLEX_EXITED:
        return answer[PLEX_ANSWER_DETAIL] == 0 ? GREEN : YELLOW;
    case PLEX_TRAPPED:
    case PLEX_WAS_CUT:
        return RED;
    case PLEX_MOVED_ON:
        return PLAIN;
    default:
        return YELLOW;
    }
}

/* The statement at the label that the thread was at, if it was running. */
static void add_carried_out(struct line *line, const uint8_t *image, const uint8_t *thread)
{
    uint32_t label = get16(thread + PLEX_THREAD_LABEL);
    if (label == PLEX_IDLE)
        return;
    add(line, ", label %u: ", label);
    add_statement(line, record_at(image, label));
}

void print_traced(const struct traced *traced, const uint8_t *image, const struct groups *groups)
{
    uint32_t thread = traced->event[PLEX_EVENT_THREAD];
    struct line what = {0}, said = {0}, where = {0};
    add_event(&what, traced->event);
    add_answer(&said, traced->answer, groups);
    if (traced->event[PLEX_EVENT_KIND] != PLEX_ARRIVAL) {
        add_carried_out(&what, image, thread_at(traced->before, thread));
        add_decimal_step(&where, image, thread, traced->answer, traced->before, traced->after);
        add(&where, where.length == 0 ? "" : "; ");
        add_thread(&where, thread_at(traced->after, thread));
    }
    print("%8" PRIu64 "  %-64s  %s%s%s", traced->index, what.text, colour_on(stdout, colour_of(traced->answer)),
          said.text, colour_off(stdout));
    print(where.length == 0 ? "\n" : "; %s\n", where.text);
}

static void print_running(const uint8_t *state)
{
    bool any = false;
    for (uint32_t thread = 0; thread < PLEX_THREADS; thread++)
        if (get16(thread_at(state, thread) + PLEX_THREAD_LABEL) != PLEX_IDLE) {
            print("%s %u", any ? "" : "threads running:", thread);
            any = true;
        }
    print(any ? "\n" : "all threads idle\n");
}

void print_summary(const struct tally *tally, const uint8_t *state)
{
    print("%s %s in %s %s\n", amount_of(tally->events).text, tally->events == 1 ? "event" : "events",
          amount_of(tally->calls).text, tally->calls == 1 ? "call" : "calls");
    for (uint32_t code = 0; code < 256; code++)
        if (tally->codes[code] != 0)
            print("  %10s  %s\n", amount_of(tally->codes[code]).text, code_name(code));
    for (uint32_t reason = 0; reason < 256; reason++)
        if (tally->traps[reason] != 0)
            print("  %10s  of the traps: %u, %s\n", amount_of(tally->traps[reason]).text, reason, trap_name(reason));
    if (tally->lost != 0)
        print("  %10s  held %s lost at EXIT\n", amount_of(tally->lost).text, tally->lost == 1 ? "signal" : "signals");
    uint32_t trees = state[PLEX_STATE_TREE_COUNT];
    print("%u %s live; ", trees, trees == 1 ? "tree" : "trees");
    print_running(state);
}
