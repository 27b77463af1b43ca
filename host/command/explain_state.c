/* The rules of a well-formed state in words. */
#include "explain.h"
#include "names.h"

/* A state and the image and table that it was lent with. Where these are not known they are NULL, and the image
 * may have as many records as one can have. */
struct seen {
    const uint8_t *image, *table, *state;
    uint32_t records;
};

/* Whose labels are below the number of records. */
static const char *whose(const struct seen *seen)
{
    return seen->image == NULL ? "an image's" : "the image's";
}

static bool is_running(const struct seen *seen, uint32_t thread)
{
    return get16(thread_at(seen->state, thread) + PLEX_THREAD_LABEL) != PLEX_IDLE;
}

static uint32_t locks_at(const struct seen *seen, uint32_t thread)
{
    return get16(thread_at(seen->state, thread) + PLEX_THREAD_LOCKS);
}

/* The label of a running thread or one of its return labels. */
static void explain_label(struct line *why, const struct seen *seen, uint32_t thread, uint32_t label)
{
    if (label >= seen->records) {
        add(why, "thread %u has label %u, and %s labels are below %u", thread, label, whose(seen), seen->records);
        return;
    }
    if (seen->image == NULL) {
        if (locks_at(seen, thread) == 0)
            add(why, "thread %u has label %u and holds no lock", thread, label);
        return;
    }
    uint32_t block = record_at(seen->image, label)[PLEX_RECORD_BLOCK], lock = lock_of(seen->table, block);
    const uint8_t *row = row_at(seen->table, block);
    if (!(locks_at(seen, thread) >> lock & 1))
        add(why, "thread %u has label %u without lock %u of its block %u", thread, label, lock, block);
    else if (row[PLEX_ROW_KIND] != PLEX_CMX && row[PLEX_ROW_THREAD] != thread)
        add(why, "thread %u has label %u, in FD block %u of thread %u", thread, label, block, row[PLEX_ROW_THREAD]);
}

static void explain_registers(struct line *why, const uint8_t *bytes, uint32_t thread)
{
    uint32_t presence = get32(bytes + PLEX_THREAD_PRESENCE);
    if (presence >> PLEX_REGISTERS != 0)
        add(why, "thread %u has a presence bit above %d", thread, PLEX_REGISTERS - 1);
    for (uint32_t r = 0; r < PLEX_REGISTERS && why->length == 0; r++)
        if (!(presence >> r & 1) && get16(bytes + PLEX_THREAD_VALUES + 2 * r) != 0)
            add(why, "absent register %u of thread %u is not 0", r, thread);
}

static void explain_signal(struct line *why, const struct seen *seen, const uint8_t *signal, bool is_held)
{
    uint32_t label = get16(signal + PLEX_SIGNAL_LABEL);
    if (label >= seen->records) {
        add(why, "its label is %u, and %s labels are below %u", label, whose(seen), seen->records);
        return;
    }
    if (seen->image == NULL) {
        explain_values(why, signal);
        return;
    }
    uint32_t entry = record_at(seen->image, label)[PLEX_RECORD_ENTRY];
    if (entry != PLEX_BUFFERED && (is_held || entry != PLEX_EXTERNAL))
        add(why, "its label is %u, whose entry is %s, and not buffered%s", label, entry_name(entry),
            is_held ? "" : " or external");
    else
        explain_values(why, signal);
}

/* Signals that a thread holds, or that a tree has pending: so many, of so many places. */
struct signals {
    const uint8_t *first;
    uint32_t count, places;
    bool are_held;
    uint32_t owner; /* the number of the thread or the tree */
};

static void explain_signals(struct line *why, const struct seen *seen, const struct signals *signals)
{
    const char *kind = signals->are_held ? "held signal" : "signal", *owners = signals->are_held ? "thread" : "tree";
    const uint8_t *signal = signals->first;
    for (uint32_t i = 0; i < signals->count && why->length == 0; i++, signal += PLEX_SIGNAL_SIZE) {
        struct line fault = {0};
        explain_signal(&fault, seen, signal, signals->are_held);
        if (fault.length != 0)
            add(why, "%s %u of %s %u: %s", kind, i, owners, signals->owner, fault.text);
    }
    if (why->length == 0 && !is_zero(signal, PLEX_SIGNAL_SIZE * (signals->places - signals->count)))
        add(why, "a byte after the last %s of %s %u is not 0", kind, owners, signals->owner);
}

static void explain_held(struct line *why, const struct seen *seen, uint32_t thread)
{
    const uint8_t *bytes = thread_at(seen->state, thread);
    uint32_t held = bytes[PLEX_THREAD_HELD_COUNT];
    struct signals signals = {held_at(bytes, 0), held, PLEX_HELD_MAX, true, thread};
    if (held > PLEX_HELD_MAX)
        add(why, "thread %u holds %u signals, and a thread holds at most %d", thread, held, PLEX_HELD_MAX);
    else
        explain_signals(why, seen, &signals);
}

static void explain_running(struct line *why, const struct seen *seen, uint32_t thread)
{
    const uint8_t *bytes = thread_at(seen->state, thread);
    uint32_t returns = bytes[PLEX_THREAD_RETURN_COUNT];
    if (returns > PLEX_RETURNS_MAX) {
        add(why, "thread %u has %u return labels, and a thread has at most %d", thread, returns, PLEX_RETURNS_MAX);
        return;
    }
    explain_label(why, seen, thread, get16(bytes + PLEX_THREAD_LABEL));
    for (uint32_t i = 0; i < PLEX_RETURNS_MAX && why->length == 0; i++) {
        uint32_t label = get16(bytes + PLEX_THREAD_RETURNS + 2 * i);
        if (i < returns)
            explain_label(why, seen, thread, label);
        else if (label != 0)
            add(why, "unused return label %u of thread %u is not 0", i, thread);
    }
    if (why->length == 0)
        explain_registers(why, bytes, thread);
    if (why->length == 0)
        explain_held(why, seen, thread);
}

static void explain_idle(struct line *why, const uint8_t *bytes, uint32_t thread)
{
    if (!is_zero(bytes + PLEX_THREAD_LOCKS, PLEX_THREAD_HELD_COUNT - PLEX_THREAD_LOCKS))
        add(why, "thread %u is idle, and its other fields are not all 0", thread);
    else if (!is_zero(bytes + PLEX_THREAD_HELD_COUNT, PLEX_THREAD_SIZE - PLEX_THREAD_HELD_COUNT))
        add(why, "thread %u is idle, and its held signals are not all 0", thread);
}

/* The lowest lock that both threads hold, or PLEX_LOCKS. */
static uint32_t common_lock(const struct seen *seen, uint32_t thread, uint32_t other)
{
    uint32_t both = locks_at(seen, thread) & locks_at(seen, other), lock = 0;
    while (lock < PLEX_LOCKS && !(both >> lock & 1))
        lock++;
    return lock;
}

static void explain_thread(struct line *why, const struct seen *seen, uint32_t thread)
{
    if (is_running(seen, thread))
        explain_running(why, seen, thread);
    else
        explain_idle(why, thread_at(seen->state, thread), thread);
    for (uint32_t other = 0; other < thread && why->length == 0; other++) {
        uint32_t lock = common_lock(seen, thread, other);
        if (lock < PLEX_LOCKS)
            add(why, "threads %u and %u both hold lock %u", other, thread, lock);
    }
}

/* A tree by itself. */
static void explain_tree(struct line *why, const struct seen *seen, uint32_t tree)
{
    const uint8_t *bytes = tree_at(seen->state, tree);
    uint32_t pending = bytes[PLEX_TREE_PENDING];
    struct signals signals = {signal_at(bytes, 0), pending, PLEX_PENDING_MAX, false, tree};
    if (bytes[PLEX_TREE_THREAD] >= PLEX_THREADS)
        add(why, "tree %u has thread %u, and threads are 0 to %d", tree, bytes[PLEX_TREE_THREAD], PLEX_THREADS - 1);
    else if (pending > PLEX_PENDING_MAX)
        add(why, "tree %u has %u pending signals, and a tree has at most %d", tree, pending, PLEX_PENDING_MAX);
    else
        explain_signals(why, seen, &signals);
}

/* A tree's place in the queue of its thread, given that the tree by itself is well formed. */
static void explain_queued(struct line *why, const struct seen *seen, uint32_t tree, bool is_first)
{
    const uint8_t *bytes = tree_at(seen->state, tree);
    uint32_t thread = bytes[PLEX_TREE_THREAD];
    if (is_first && is_running(seen, thread))
        return;
    if (bytes[PLEX_TREE_PENDING] == 0) {
        add(why, "tree %u has no pending signal and is not a running thread's first", tree);
        return;
    }
    if (seen->image == NULL)
        return;
    uint32_t label = get16(signal_at(bytes, 0) + PLEX_SIGNAL_LABEL);
    uint32_t block = record_at(seen->image, label)[PLEX_RECORD_BLOCK];
    uint32_t owner = row_at(seen->table, block)[PLEX_ROW_THREAD];
    if (owner != thread)
        add(why, "tree %u is on thread %u, and its first signal goes to block %u of thread %u", tree, thread, block,
            owner);
}

/* The trees in list order, and that every running thread has one. */
static void explain_trees(struct line *why, const struct seen *seen)
{
    uint32_t count = seen->state[PLEX_STATE_TREE_COUNT], with_tree = 0;
    if (count > PLEX_TREES_MAX) {
        add(why, "the tree count is %u, and a machine has at most %d", count, PLEX_TREES_MAX);
        return;
    }
    for (uint32_t tree = 0; tree < count && why->length == 0; tree++) {
        explain_tree(why, seen, tree);
        if (why->length != 0)
            return;
        uint32_t thread = tree_at(seen->state, tree)[PLEX_TREE_THREAD];
        explain_queued(why, seen, tree, !(with_tree >> thread & 1));
        with_tree |= 1u << thread;
    }
    for (uint32_t thread = 0; thread < PLEX_THREADS && why->length == 0; thread++)
        if (is_running(seen, thread) && !(with_tree >> thread & 1))
            add(why, "thread %u is running and has no tree", thread);
    size_t unused = PLEX_TREE_SIZE * (PLEX_TREES_MAX - count);
    if (why->length == 0 && !is_zero(tree_at(seen->state, count), unused))
        add(why, "a byte after the last of the %u trees is not 0", count);
}

static void explain_seen(struct line *why, const struct seen *seen)
{
    for (uint32_t thread = 0; thread < PLEX_THREADS && why->length == 0; thread++)
        explain_thread(why, seen, thread);
    if (why->length == 0)
        explain_trees(why, seen);
}

void explain_state(struct line *why, const uint8_t *image, uint32_t records, const uint8_t *table, const uint8_t *state)
{
    struct seen seen = {image, table, state, records};
    explain_seen(why, &seen);
}

void explain_state_alone(struct line *why, const uint8_t *state)
{
    struct seen seen = {NULL, NULL, state, PLEX_RECORDS_MAX};
    explain_seen(why, &seen);
}
