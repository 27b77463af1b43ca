/* What the text, the graph and the picture of the waits share. */
#include "waits.h"

#include <stdio.h>

bool does_wait(const struct walk *walk)
{
    return walk->met[1] != PLEX_UNMET;
}

bool is_on_ring(const struct walk *walks, uint32_t thread)
{
    uint32_t count = walks[thread].result & ~PLEX_RING;
    uint32_t last = walks[thread].met[count - 1];
    return does_wait(&walks[last]) && walks[last].met[1] == thread;
}

bool is_first_on_ring(const struct walk *walks, uint32_t thread)
{
    bool is_first = is_on_ring(walks, thread);
    for (uint32_t i = 0; i < (walks[thread].result & ~PLEX_RING); i++)
        is_first &= thread <= walks[thread].met[i];
    return is_first;
}

bool is_in_waits(const struct walk *walks, uint32_t thread)
{
    bool is_in = does_wait(&walks[thread]);
    for (uint32_t other = 0; other < PLEX_THREADS; other++)
        is_in |= does_wait(&walks[other]) && walks[other].met[1] == thread;
    return is_in;
}

void write_box(char lines[BOX_LINES][BOX_LINE_SIZE], const uint8_t *state, const struct walk *walks, uint32_t thread)
{
    const uint8_t *bytes = thread_at(state, thread);
    uint32_t label = get16(bytes + PLEX_THREAD_LABEL), count = count_bits(get16(bytes + PLEX_THREAD_LOCKS));
    snprintf(lines[0], BOX_LINE_SIZE, "thread %u", thread);
    if (label == PLEX_IDLE)
        snprintf(lines[1], BOX_LINE_SIZE, "idle");
    else
        snprintf(lines[1], BOX_LINE_SIZE, "at label %u", label);
    snprintf(lines[2], BOX_LINE_SIZE, "holds %u %s", count, count == 1 ? "lock" : "locks");
    if (does_wait(&walks[thread]))
        snprintf(lines[3], BOX_LINE_SIZE, "waits for lock %u", walks[thread].lock);
    else
        snprintf(lines[3], BOX_LINE_SIZE, "does not wait");
}
