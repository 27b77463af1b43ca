/* plex waits: the walk from every thread, as text, as a graph or as a picture. */
#define _POSIX_C_SOURCE 200809L

#include "waits.h"
#include "command.h"
#include "outputs.h"

#include <errno.h>
#include <stdlib.h>
#include <string.h>

/* The answer that the next step of the thread would get, tried on a copy of the state. */
static bool try_step(const struct lent *lent, uint32_t thread, uint8_t *answer)
{
    uint8_t copy[PLEX_STATE_SIZE], step[PLEX_EVENT_SIZE] = {0};
    memcpy(copy, lent->state.bytes, sizeof copy);
    step[PLEX_EVENT_KIND] = PLEX_STEP;
    step[PLEX_EVENT_THREAD] = (uint8_t)thread;
    return was_accepted(lent, plex_run(lent->image.bytes, lent->image.size, lent->table.bytes, lent->table.size, copy,
                                       sizeof copy, step, sizeof step, answer, PLEX_ANSWER_SIZE));
}

static bool walk_from_all(const struct lent *lent, struct walk *walks)
{
    for (uint32_t thread = 0; thread < PLEX_THREADS; thread++) {
        struct walk *walk = &walks[thread];
        uint8_t answer[PLEX_ANSWER_SIZE];
        walk->result = plex_walk(lent->image.bytes, lent->image.size, lent->table.bytes, lent->table.size,
                                 lent->state.bytes, lent->state.size, thread, walk->met, sizeof walk->met);
        if (!was_accepted(lent, walk->result) || !try_step(lent, thread, answer))
            return false;
        walk->lock = answer[PLEX_ANSWER_DETAIL];
    }
    return true;
}

/* The threads met, as "thread 1 --lock 3--> thread 0". */
static void print_met(const struct walk *walks, const struct walk *walk, uint32_t count)
{
    print("thread %u", walk->met[0]);
    for (uint32_t i = 1; i < count; i++)
        print(" --lock %u--> thread %u", walks[walk->met[i - 1]].lock, walk->met[i]);
}

/* The walk of a thread on no ring, up to the first thread that is on one: as "thread 1 --lock 3--> thread 0, which does
 * not wait". */
static void print_walk(const struct walk *walks, const struct walk *walk)
{
    bool ring = walk->result & PLEX_RING;
    uint32_t count = 1;
    while (count < (walk->result & ~PLEX_RING) && !is_on_ring(walks, walk->met[count - 1]))
        count++;
    print("%s", colour_on(stdout, ring ? RED : YELLOW));
    print_met(walks, walk, count);
    print(", which %s%s\n", ring ? "is on a ring" : "does not wait", colour_off(stdout));
}

/* The walk round a ring, and what opens it: without the last thread's job the one before it gets the lock that it
 * waits for, if no other thread takes a step between. */
static void print_ring(const struct walk *walks, const struct walk *walk)
{
    uint32_t count = walk->result & ~PLEX_RING, last = walk->met[count - 1];
    print("%s", colour_on(stdout, RED));
    print_met(walks, walk, count);
    print(" --lock %u--> thread %u again: a ring%s\n", walks[last].lock, walk->met[0], colour_off(stdout));
    print("  to open it, cut thread %u and then, in the same call, step thread %u\n", last, walk->met[count - 2]);
}

/* The walks of the threads that wait, each ring once, and then which blocks each lock guards that is waited for. */
static void print_walks(const struct walk *walks, const struct groups *groups)
{
    uint32_t wanted = 0;
    for (uint32_t thread = 0; thread < PLEX_THREADS; thread++)
        if (does_wait(&walks[thread])) {
            if (is_first_on_ring(walks, thread))
                print_ring(walks, &walks[thread]);
            else if (!is_on_ring(walks, thread))
                print_walk(walks, &walks[thread]);
            wanted |= 1u << walks[thread].lock;
        }
    if (wanted == 0)
        print("no thread waits\n");
    for (uint32_t lock = 0; lock < PLEX_LOCKS; lock++)
        if (wanted >> lock & 1)
            print_guarded(lock, groups);
}

/* The graph grows down the page, and is made smaller if it does not fit. */
static void print_graph(const uint8_t *state, const struct walk *walks)
{
    print("digraph waits {\n  rankdir=TB;\n  size=\"7.5,10\";\n"
          "  node [shape=box, fontname=\"sans-serif\"];\n  edge [fontname=\"sans-serif\"];\n");
    for (uint32_t thread = 0; thread < PLEX_THREADS; thread++) {
        char lines[BOX_LINES][BOX_LINE_SIZE];
        if (!is_in_waits(walks, thread))
            continue;
        write_box(lines, state, walks, thread);
        print("  t%u [label=\"%s\\n%s\\n%s\\n%s\"];\n", thread, lines[0], lines[1], lines[2], lines[3]);
    }
    for (uint32_t thread = 0; thread < PLEX_THREADS; thread++)
        if (does_wait(&walks[thread]))
            print("  t%u -> t%u [label=\"lock %u\"%s];\n", thread, walks[thread].met[1], walks[thread].lock,
                  is_on_ring(walks, thread) ? ", color=red" : "");
    print("}\n");
}

static bool has_ring(const struct walk *walks)
{
    bool any = false;
    for (uint32_t thread = 0; thread < PLEX_THREADS; thread++)
        any |= (walks[thread].result & PLEX_RING) != 0;
    return any;
}

/* The picture as a text; NULL, with errno set, if there is no memory. */
static char *make_picture(const uint8_t *state, const struct walk *walks, size_t *size)
{
    char *text = NULL;
    FILE *stream = open_memstream(&text, size);
    if (stream == NULL)
        return NULL;
    draw_picture(stream, state, walks);
    if (fclose(stream) == 0)
        return text;
    free(text);
    return NULL;
}

static bool write_picture(const char *path, const uint8_t *state, const struct walk *walks)
{
    size_t size;
    char *text = make_picture(state, walks, &size);
    int failed = text == NULL ? errno : write_file(path, (const uint8_t *)text, size);
    free(text);
    return is_written(path, failed);
}

/* What is printed is out before the picture is put in place. */
static int show_waits(const struct lent *lent, bool as_graph, const char *picture)
{
    struct walk walks[PLEX_THREADS];
    if (!walk_from_all(lent, walks))
        return TURNED_BACK;
    struct groups groups = groups_of(lent);
    if (as_graph)
        print_graph(lent->state.bytes, walks);
    else if (picture == NULL)
        print_walks(walks, &groups);
    if (!is_printed() || (picture != NULL && !write_picture(picture, lent->state.bytes, walks)))
        return TURNED_BACK;
    return has_ring(walks) ? RING_FOUND : DONE;
}

int waits_command(int argc, char **argv)
{
    struct lent lent = {0};
    const char *paths[3], *picture = NULL;
    bool as_graph = false;
    const struct option options[] = {{.name = "--dot", .flag = &as_graph}, {.name = "--svg", .written = &picture}, {0}};
    if (!are_so_many(take_arguments(argc, argv, options, paths, 3), 3))
        return MISUSED;
    int status = TURNED_BACK;
    if (lend(&lent.image, paths[0], LONGEST_IMAGE) && lend(&lent.table, paths[1], PLEX_TABLE_SIZE) &&
        lend(&lent.state, paths[2], PLEX_STATE_SIZE))
        status = show_waits(&lent, as_graph, picture);
    free_lent(&lent);
    return status;
}
