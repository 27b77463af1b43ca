/* plex state: a state for a person. Only its image and table tell whether it is well formed; counts
 * above their limits are shown as they stand. */
#include "command.h"

static void print_heading(const char *heading)
{
    print("%s%s%s\n", colour_on(stdout, BOLD), heading, colour_off(stdout));
}

static bool is_idle(const uint8_t *thread)
{
    return get16(thread + PLEX_THREAD_LABEL) == PLEX_IDLE;
}

static void print_signals(const char *before, const uint8_t *signals, uint32_t count)
{
    for (uint32_t i = 0; i < count; i++) {
        struct line line = {0};
        add_signal(&line, signals + PLEX_SIGNAL_SIZE * i);
        print("    %s%s\n", before, line.text);
    }
}

/* As "label 6, block 2: ASSIGN r0 := r0 * r1, on to 7". */
static void print_statement(const char *before, const struct file *image, uint32_t label)
{
    struct line line = {0};
    if (label >= records_of(image)) {
        print("    %slabel %u: the image has no such label\n", before, label);
        return;
    }
    const uint8_t *record = record_at(image->bytes, label);
    add_statement(&line, record);
    print("    %slabel %u, block %u: %s\n", before, label, record[PLEX_RECORD_BLOCK], line.text);
}

/* The statements at the label and the return labels of a running thread. */
static void print_statements(const uint8_t *thread, const struct file *image)
{
    uint32_t returns = at_most(thread[PLEX_THREAD_RETURN_COUNT], PLEX_RETURNS_MAX);
    print_statement("", image, get16(thread + PLEX_THREAD_LABEL));
    for (uint32_t i = 0; i < returns; i++)
        print_statement("return ", image, get16(thread + PLEX_THREAD_RETURNS + 2 * i));
}

/* The image is NULL if it is not known. */
static void print_threads(const uint8_t *state, const struct file *image)
{
    print_heading("threads");
    for (uint32_t thread = 0; thread < PLEX_THREADS; thread++) {
        const uint8_t *bytes = thread_at(state, thread);
        struct line where = {0}, registers = {0};
        add_place(&where, bytes);
        add_registers(&registers, bytes);
        print("  %u  %s", thread, where.text);
        print(is_idle(bytes) ? "\n" : ", registers %s\n", registers.text);
        if (image != NULL && !is_idle(bytes))
            print_statements(bytes, image);
        print_signals("held ", held_at(bytes, 0), at_most(bytes[PLEX_THREAD_HELD_COUNT], PLEX_HELD_MAX));
    }
}

static void print_locks(const uint8_t *state, const struct groups *groups)
{
    bool any = false;
    print_heading("locks");
    for (uint32_t lock = 0; lock < PLEX_LOCKS; lock++)
        for (uint32_t thread = 0; thread < PLEX_THREADS; thread++)
            if (get16(thread_at(state, thread) + PLEX_THREAD_LOCKS) >> lock & 1) {
                struct line line = {0};
                add_lock(&line, lock, groups);
                print("  %s is held by thread %u\n", line.text, thread);
                any = true;
            }
    if (!any)
        print("  no lock is held\n");
}

static uint32_t listed_trees(const uint8_t *state)
{
    return at_most(state[PLEX_STATE_TREE_COUNT], PLEX_TREES_MAX);
}

static void print_queue(const uint8_t *state, uint32_t thread)
{
    bool begun = false;
    for (uint32_t tree = 0; tree < listed_trees(state); tree++) {
        if (tree_at(state, tree)[PLEX_TREE_THREAD] != thread)
            continue;
        if (begun)
            print(", tree %u", tree);
        else
            print("  thread %u: tree %u%s", thread, tree, is_idle(thread_at(state, thread)) ? "" : " (its job runs)");
        begun = true;
    }
    if (begun)
        print("\n");
}

static void print_trees(const uint8_t *state)
{
    print("%strees%s: %u\n", colour_on(stdout, BOLD), colour_off(stdout), state[PLEX_STATE_TREE_COUNT]);
    for (uint32_t tree = 0; tree < listed_trees(state); tree++) {
        const uint8_t *bytes = tree_at(state, tree);
        print("  tree %u on thread %u, %u pending\n", tree, bytes[PLEX_TREE_THREAD], bytes[PLEX_TREE_PENDING]);
        print_signals("", signal_at(bytes, 0), at_most(bytes[PLEX_TREE_PENDING], PLEX_PENDING_MAX));
    }
}

static void print_words(const uint8_t *state)
{
    bool any = false;
    print_heading("shared words that are not 0");
    for (uint32_t block = 0; block < PLEX_BLOCKS; block++) {
        struct line line = {0};
        for (uint32_t word = 0; word < PLEX_BLOCK_WORDS; word++)
            if (get16(word_at(state, block, word)) != 0)
                add(&line, " w%u=%u", word, get16(word_at(state, block, word)));
        if (line.length != 0)
            print("  block %u:%s\n", block, line.text);
        any |= line.length != 0;
    }
    if (!any)
        print("  none\n");
}

/* The image and the groups are NULL if they are not known. */
static void print_state(const uint8_t *state, const struct file *image, const struct groups *groups)
{
    print_threads(state, image);
    print_locks(state, groups);
    print_heading("queues");
    for (uint32_t thread = 0; thread < PLEX_THREADS; thread++)
        print_queue(state, thread);
    if (state[PLEX_STATE_TREE_COUNT] == 0)
        print("  all are empty\n");
    print_trees(state);
    print_words(state);
}

/* What the library says of the state with the image and the table, which any walk tells. */
static uint32_t check_state(const struct lent *lent)
{
    uint8_t met[PLEX_MET_SIZE];
    return plex_walk(lent->image.bytes, lent->image.size, lent->table.bytes, lent->table.size, lent->state.bytes,
                     lent->state.size, 0, met, sizeof met);
}

static bool is_well_formed(const struct lent *lent, uint32_t result)
{
    if (!was_accepted(lent, result))
        return false;
    print("%swell formed%s with %s and %s\n", colour_on(stdout, GREEN), colour_off(stdout), lent->image.path,
          lent->table.path);
    return true;
}

/* A state that is not well formed is shown too, so that the fault can be seen. */
static bool show_state(const struct lent *lent, bool has_image)
{
    if (!has_image && !is_state_long(&lent->state))
        return false;
    struct groups groups = groups_of(lent);
    uint32_t result = has_image ? check_state(lent) : 0;
    bool has_records = has_image && PLEX_NUMBER(result) != PLEX_BAD_IMAGE_LENGTH;
    if (lent->state.size == PLEX_STATE_SIZE)
        print_state(lent->state.bytes, has_records ? &lent->image : NULL,
                    lent->table.size == PLEX_TABLE_SIZE ? &groups : NULL);
    return !has_image || is_well_formed(lent, result);
}

/* Whether there are as many files as the part takes; a sentence if not. */
static bool are_files_of_state(int count)
{
    if (count == 2)
        complain("there are 2 files, and 1 or 3 are wanted: STATE alone, or IMAGE TABLE STATE");
    return count != 2 && are_one_or_other(count, 1, 3);
}

int state_command(int argc, char **argv)
{
    static const struct option no_options[] = {{0}};
    const char *paths[3];
    struct lent lent = {0};
    int count = take_arguments(argc, argv, no_options, paths, 3);
    bool has_image = count > 1;
    if (!are_files_of_state(count))
        return MISUSED;
    bool done =
        (!has_image || (lend(&lent.image, paths[0], LONGEST_IMAGE) && lend(&lent.table, paths[1], PLEX_TABLE_SIZE))) &&
        lend(&lent.state, paths[count - 1], PLEX_STATE_SIZE) && show_state(&lent, has_image);
    free_lent(&lent);
    return done ? DONE : TURNED_BACK;
}
