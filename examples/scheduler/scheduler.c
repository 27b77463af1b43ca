/* Eight OS threads around one machine. Each is the worker of one thread of the machine: it sends
 * that thread's orders and steps it. One lock of the host guards the state and what the host notes
 * of it, so there is one call at a time. Events go in batches. A job that takes more steps than its
 * budget is cut. A thread that has to wait looks for a ring, and cuts it. No guest has more than its
 * share of the tree list. No job traps: an account whose balance is too low refuses a transfer. At the
 * end all trees are drained, and the balances have to be right. */
#define _POSIX_C_SOURCE 200809L

#include "accounts.h"

#include <pthread.h>
#include <sched.h>
#include <stdio.h>
#include <stdlib.h>
#include <string.h>

enum { STEPS = 64, MOST_EVENTS = STEPS + 2 };                    /* of a batch */
enum { BUDGET = 4 * TRANSFER_STEPS };                            /* steps of a job */
enum { SHARE = PLEX_TREES_MAX / PLEX_THREADS };                  /* trees of a guest */
enum { ORDERS = 64, LOOPS = 8, TRANSFERS = ORDERS - LOOPS - 1 }; /* of a guest; and one REFILL */

/* The machine, and what the host notes of each thread; all of it under the lock. */
static struct {
    pthread_mutex_t lock;
    uint8_t image[RECORDS * PLEX_RECORD_SIZE], table[PLEX_TABLE_SIZE], words[PLEX_WORDS_SIZE];
    uint8_t state[PLEX_STATE_SIZE];
    struct {
        uint32_t orders, steps, over_budget;
    } threads[PLEX_THREADS];
    uint32_t calls, events, rings;
} machine = {.lock = PTHREAD_MUTEX_INITIALIZER};

static pthread_barrier_t all_started;

struct batch {
    uint8_t events[MOST_EVENTS * PLEX_EVENT_SIZE], answers[MOST_EVENTS * PLEX_ANSWER_SIZE];
    uint32_t count;
};

static void demand(int holds, const char *what)
{
    if (!holds) {
        fprintf(stderr, "scheduler: %s: not so\n", what);
        exit(1);
    }
}

static uint8_t *next_event(struct batch *batch)
{
    demand(batch->count < MOST_EVENTS, "room in the batch");
    return batch->events + PLEX_EVENT_SIZE * batch->count++;
}

static uint32_t code_of(const struct batch *batch, uint32_t index)
{
    return batch->answers[PLEX_ANSWER_SIZE * index + PLEX_ANSWER_CODE];
}

/* The steps of each thread's job: those answered PLEX_MOVED_ON since it started. */
static void count_steps(const struct batch *batch)
{
    for (uint32_t i = 0; i < batch->count; i++) {
        uint32_t t = batch->events[PLEX_EVENT_SIZE * i + PLEX_EVENT_THREAD], code = code_of(batch, i);
        demand(code != PLEX_TRAPPED, "no job trapped");
        if (code == PLEX_MOVED_ON)
            machine.threads[t].steps++;
        else if (code >= PLEX_STARTED && code <= PLEX_WAS_CUT)
            machine.threads[t].steps = 0;
    }
}

static void carry_out(struct batch *batch)
{
    demand(plex_run(machine.image, sizeof machine.image, machine.table, sizeof machine.table, machine.state,
                    sizeof machine.state, batch->events, PLEX_EVENT_SIZE * batch->count, batch->answers,
                    PLEX_ANSWER_SIZE * batch->count) == 0,
           "an accepted run");
    machine.calls++;
    machine.events += batch->count;
    count_steps(batch);
}

/* The trees on the thread, and those that the signals its job holds may still found. */
static uint32_t trees_of(uint32_t t)
{
    uint32_t found = thread_at(machine.state, t)[PLEX_THREAD_HELD_COUNT];
    for (uint32_t i = 0; i < machine.state[PLEX_STATE_TREE_COUNT]; i++)
        found += tree_at(machine.state, i)[PLEX_TREE_THREAD] == t;
    return found;
}

/* The first order is a transfer, the second the one that never leaves its tree empty. */
static enum order order_at(uint32_t index)
{
    return index == 1 ? REFILL : index % (ORDERS / LOOPS) == ORDERS / LOOPS - 1 ? LOOP : TRANSFER;
}

/* A ring was closed: the last thread met is on it, and the one before waits for it. The last one's
 * job, a transfer that has written nothing yet, is cut; the other takes its step in the same call,
 * so that nobody is faster; and the transfer is sent again. */
static void cut_ring(const uint8_t *met, uint32_t count)
{
    struct batch batch = {.count = 0};
    uint32_t last = met[count - 1];
    put_cut(next_event(&batch), last);
    put_step(next_event(&batch), met[count - 2]);
    put_order(next_event(&batch), last, TRANSFER);
    carry_out(&batch);
    demand(code_of(&batch, 0) == PLEX_WAS_CUT, "a job cut");
    demand(code_of(&batch, 1) == PLEX_MOVED_ON, "a ring opened");
    demand(code_of(&batch, 2) == PLEX_ARRIVED, "a transfer sent again");
    machine.rings++;
}

static void look_for_ring(uint32_t t)
{
    uint8_t met[PLEX_MET_SIZE];
    uint32_t walk = plex_walk(machine.image, sizeof machine.image, machine.table, sizeof machine.table, machine.state,
                              sizeof machine.state, t, met, sizeof met);
    demand(PLEX_NUMBER(walk) == 0, "an accepted walk");
    if (walk & PLEX_RING)
        cut_ring(met, walk & ~PLEX_RING);
}

/* One batch of thread t: a cut if its job is over the budget, an order if its share of the tree list
 * has room, and steps. If the thread has to wait after it, there may be a ring. */
static void take_turn(uint32_t t)
{
    struct batch batch = {.count = 0};
    uint32_t *orders = &machine.threads[t].orders;
    int over_budget = machine.threads[t].steps > BUDGET;
    if (over_budget)
        put_cut(next_event(&batch), t);
    int sends = *orders < ORDERS && trees_of(t) < SHARE;
    uint32_t arrival = batch.count;
    if (sends)
        put_order(next_event(&batch), t, order_at((*orders)++));
    for (int i = 0; i < STEPS; i++)
        put_step(next_event(&batch), t);
    carry_out(&batch);
    demand(!over_budget || code_of(&batch, 0) == PLEX_WAS_CUT, "a job over its budget cut");
    machine.threads[t].over_budget += (uint32_t)over_budget;
    demand(!sends || code_of(&batch, arrival) == PLEX_ARRIVED, "room for a guest's share");
    if (code_of(&batch, batch.count - 1) == PLEX_WAITING)
        look_for_ring(t);
}

static int all_done(void)
{
    int done = 1;
    for (uint32_t t = 0; t < PLEX_THREADS; t++)
        done &= transfers_done(machine.state, t) == TRANSFERS && machine.threads[t].over_budget == LOOPS;
    return done;
}

/* After the first batch of each worker all eight transfers are under way, and a ring is certain. */
static void *worker(void *thread)
{
    uint32_t t = *(const uint32_t *)thread;
    for (int done = 0, turns = 0; !done; turns++) {
        pthread_mutex_lock(&machine.lock);
        take_turn(t);
        done = all_done();
        pthread_mutex_unlock(&machine.lock);
        if (turns == 0)
            pthread_barrier_wait(&all_started);
        sched_yield();
    }
    return NULL;
}

/* Every tree is emptied: with all jobs cut neither a lock nor a signal is held, and a job that is cut
 * right after its start has taken one signal and carried out no statement. */
static void drain(void)
{
    for (uint32_t round = 0; round <= PLEX_TREES_MAX * PLEX_PENDING_MAX; round++) {
        struct batch batch = {.count = 0};
        for (uint32_t t = 0; t < PLEX_THREADS; t++) {
            put_cut(next_event(&batch), t);
            put_step(next_event(&batch), t);
        }
        carry_out(&batch);
    }
    demand(machine.state[PLEX_STATE_TREE_COUNT] == 0, "no trees after the drain");
}

int main(void)
{
    pthread_t workers[PLEX_THREADS];
    uint32_t numbers[PLEX_THREADS];
    make_accounts(machine.image, machine.table, machine.words);
    demand(plex_fresh(machine.image, sizeof machine.image, machine.table, sizeof machine.table, machine.words,
                      sizeof machine.words, machine.state, sizeof machine.state) == 0,
           "a fresh machine");
    demand(pthread_barrier_init(&all_started, NULL, PLEX_THREADS) == 0, "a barrier");
    for (uint32_t t = 0; t < PLEX_THREADS; t++) {
        numbers[t] = t;
        demand(pthread_create(&workers[t], NULL, worker, &numbers[t]) == 0, "a worker");
    }
    for (uint32_t t = 0; t < PLEX_THREADS; t++)
        demand(pthread_join(workers[t], NULL) == 0, "a worker's end");
    drain();
    demand(balances_right(machine.state, TRANSFERS), "every transfer carried out or refused once");
    demand(transfers_refused(machine.state) > 0, "a transfer refused");
    demand(machine.rings > 0, "a ring cut");
    printf("scheduler: %u events in %u calls; %d transfers, each carried out once but for %u refused; "
           "endless jobs cut: %d; rings cut: %u\n",
           machine.events, machine.calls, PLEX_THREADS * TRANSFERS, transfers_refused(machine.state),
           PLEX_THREADS * LOOPS, machine.rings);
    return 0;
}
