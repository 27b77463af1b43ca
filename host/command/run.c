/* plex run: an event file carried out, in calls of at most 1,024 events. */
#define _POSIX_C_SOURCE 200809L

#include "events.h"
#include "outputs.h"
#include "trace.h"

#include <errno.h>
#include <stdlib.h>
#include <string.h>
#include <unistd.h>

/* The files that a run writes. */
enum { ANSWERS, STATE_LEFT, OUTPUTS };

/* One run of the command. */
struct run {
    struct lent lent;
    struct event_source source;
    bool summary_alone;
    const char *state_path, *output_paths[OUTPUTS]; /* NULL where there is none */
    struct output outputs[OUTPUTS];
    struct tally tally;
};

/* The fresh machine, or the state of the file. */
static bool begin_machine(struct run *run, const char *words_path)
{
    struct lent *lent = &run->lent;
    if (run->state_path != NULL)
        return lend(&lent->state, run->state_path, PLEX_STATE_SIZE);
    if (!lend(&lent->words, words_path, PLEX_WORDS_SIZE))
        return false;
    lent->state = (struct file){.path = "the fresh state", .bytes = malloc(PLEX_STATE_SIZE), .size = PLEX_STATE_SIZE};
    if (!is_read(&lent->state, lent->state.bytes == NULL ? ENOMEM : 0))
        return false;
    return was_accepted(lent, plex_fresh(lent->image.bytes, lent->image.size, lent->table.bytes, lent->table.size,
                                         lent->words.bytes, lent->words.size, lent->state.bytes, lent->state.size));
}

static bool begin_outputs(struct run *run)
{
    for (int i = 0; i < OUTPUTS; i++) {
        const char *path = run->output_paths[i];
        if (path != NULL && !is_written(path, begin_output(&run->outputs[i], path)))
            return false;
    }
    return true;
}

/* Writes to an output if it is wanted. */
static bool put(struct run *run, int output, const uint8_t *bytes, size_t size)
{
    const char *path = run->output_paths[output];
    return path == NULL || is_written(path, write_output(&run->outputs[output], bytes, size));
}

/* One Run with so many of the events in hand, from the given one on. */
static bool carry_out(struct run *run, size_t first, size_t count, uint8_t *answers)
{
    struct lent lent = run->lent;
    lent.events.bytes += PLEX_EVENT_SIZE * first;
    lent.events_before = run->tally.events;
    run->tally.calls++;
    uint32_t result =
        plex_run(lent.image.bytes, lent.image.size, lent.table.bytes, lent.table.size, lent.state.bytes,
                 lent.state.size, lent.events.bytes, PLEX_EVENT_SIZE * count, answers, PLEX_ANSWER_SIZE * count);
    if (!was_accepted(&lent, result))
        return false;
    for (size_t i = 0; i < count; i++)
        count_answer(&run->tally, answers + PLEX_ANSWER_SIZE * i);
    return true;
}

/* The events in hand one by one, to show the thread before and after each. */
static bool trace(struct run *run, size_t count, uint8_t *answers)
{
    uint8_t before[PLEX_STATE_SIZE];
    struct groups groups = groups_of(&run->lent);
    for (size_t i = 0; i < count; i++) {
        uint8_t *answer = answers + PLEX_ANSWER_SIZE * i;
        memcpy(before, run->lent.state.bytes, sizeof before);
        if (!carry_out(run, i, 1, answer))
            return false;
        struct traced traced = {run->tally.events - 1, run->lent.events.bytes + PLEX_EVENT_SIZE * i, answer, before,
                                run->lent.state.bytes};
        print_traced(&traced, run->lent.image.bytes, &groups);
    }
    return true;
}

/* The events in hand; what they say is not held back until more have come. */
static bool carry_out_events(struct run *run)
{
    uint8_t answers[PLEX_ANSWER_SIZE * PLEX_EVENTS_MAX];
    size_t count = run->lent.events.size / PLEX_EVENT_SIZE;
    bool at_once = run->summary_alone || is_quiet || count == 0;
    if (!(at_once ? carry_out(run, 0, count, answers) : trace(run, count, answers)))
        return false;
    if (!put(run, ANSWERS, answers, PLEX_ANSWER_SIZE * count) || !is_printed())
        return false;
    if (run->summary_alone || !isatty(STDOUT_FILENO))
        show_progress(run->tally.events, run->source.total);
    return true;
}

/* How many events a call waits for: one is enough if somebody may be waiting for what it says. */
static size_t fewest_events(const struct run *run)
{
    const struct output *answers = &run->outputs[ANSWERS];
    bool are_awaited = answers->path != NULL && answers->temporary == NULL;
    return are_awaited || !(run->summary_alone || is_quiet) ? 1 : PLEX_EVENTS_MAX;
}

/* The whole file; one call is made even if it has no events, for the library to see the state. */
static bool carry_out_file(struct run *run)
{
    do {
        if (!next_events(&run->source, &run->lent.events, fewest_events(run)))
            return false;
        if (run->lent.events.size == 0 && run->tally.calls != 0)
            return true;
        if (!carry_out_events(run))
            return false;
    } while (run->lent.events.size != 0);
    return true;
}

/* The state left and the answers, complete and closed, but not yet in place. */
static bool complete_outputs(struct run *run)
{
    if (!put(run, STATE_LEFT, run->lent.state.bytes, PLEX_STATE_SIZE))
        return false;
    for (int i = 0; i < OUTPUTS; i++) {
        const char *path = run->output_paths[i];
        if (path != NULL && !is_written(path, close_output(&run->outputs[i])))
            return false;
    }
    return true;
}

/* The summary is out before the first file is put in place: if it fails, nothing was altered. */
static bool finish(struct run *run)
{
    const struct output *at_fault;
    clear_progress();
    print_summary(&run->tally, run->lent.state.bytes);
    if (!is_printed())
        return false;
    int failed = place_outputs(run->outputs, OUTPUTS, &at_fault);
    return is_written(at_fault->path, failed);
}

static void end_run(struct run *run)
{
    close_events(&run->source);
    for (int i = 0; i < OUTPUTS; i++)
        drop_output(&run->outputs[i]);
    free_lent(&run->lent);
}

int run_command(int argc, char **argv)
{
    struct run run = {.source.descriptor = -1};
    const char *paths[4];
    const struct option options[] = {
        {.name = "--state", .read = &run.state_path},
        {.name = "--out", .written = &run.output_paths[STATE_LEFT], .replaced = &run.state_path},
        {.name = "--answers", .written = &run.output_paths[ANSWERS]},
        {.name = "--summary", .flag = &run.summary_alone},
        {0}};
    int count = take_arguments(argc, argv, options, paths, 4);
    if (!are_so_many(count, run.state_path != NULL ? 3 : 4))
        return MISUSED;
    bool done = lend(&run.lent.image, paths[0], LONGEST_IMAGE) && lend(&run.lent.table, paths[1], PLEX_TABLE_SIZE) &&
                begin_machine(&run, paths[2]) && open_events(&run.source, &run.lent.events, paths[count - 1]) &&
                begin_outputs(&run) && carry_out_file(&run) && complete_outputs(&run) && finish(&run);
    clear_progress();
    end_run(&run);
    return done ? DONE : TURNED_BACK;
}
