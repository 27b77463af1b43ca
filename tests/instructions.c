/* How many instructions of the library's own code an event takes, or a record in the check, and how many calls of the C
 * library: no row below has more than its limit, which is a few percent above what was counted. So what hangs on the
 * compiler is watched: which functions it compiles into their callers, of which loops it makes vector code, which bytes
 * it leaves where they are.
 *
 * The processor stops after each instruction while its trap flag is set, and the signal's handler counts. What the C
 * library does when it is called goes by the machine, and is not counted. */
#define _GNU_SOURCE

#include "bench_calls.h"
#include "bench_rows.h"

#include <signal.h>
#include <stdio.h>
#include <stdlib.h>
#include <string.h>
#include <ucontext.h>
#include <x86intrin.h>

enum { TRAP_FLAG = 0x100 };

/* An event's are those of the later events, which do what the first do: so what a call begins and ends with is in none.
 */
enum { FIRST_EVENTS = 16, LATER_EVENTS = 48 };

/* Rows of the benchmark: Run with 1,024 events is counted by the event, the check and the walk by the record. */
static const struct {
    const char *row;
    double instructions, calls;
} limits[] = {
    /* Every function of a step is compiled into Run; registers are read where they stand; of the signals held, which
     * are part of the thread's value, no byte is copied. */
    {"run, ASSIGN add", 107, 0},
    /* The kind of a destination is tested once, and the second value stored without the record's head. */
    {"run, DIVIDE", 112, 0},
    {"run, DIVIDE, registers", 112, 0},
    /* An arm an operation: none goes through the others' tests. */
    {"run, PACK", 113, 0},
    /* The passage into a block is compiled into the step, and the lock that the job has is neither searched for nor
     * stored. */
    {"run, SEND of 0 values", 117, 0},
    /* The kind of an operand is tested once, where it is read; nothing is loaded there for a trap. */
    {"run, SEND of 25 values", 540, 0},
    /* SEND JOBTREE writes the one new signal; an end stores constants, and clears signals only where some are held. */
    {"run, new trees", 124, 0.35},
    /* What an opcode allows is looked up, the operand count is looked at once, and the places for operands are tested
     * 16 bytes at a time, with one comparison of each with their end. */
    {"check, 512 records", 106, 0},
    {"check, 512 EXIT", 58, 0},
    /* Nothing is laid out before the first record. */
    {"check, 1 record", 207, 0},
    /* The zeros of an idle machine's state are tested 16 bytes at a time. */
    {"walk, nobody waits", 239, 0},
};

/* Where the program's own code begins and ends; the C library's lies elsewhere. */
extern const char __executable_start[], etext[];

/* Since the last clearing; a call is a step from the program's own code to other. */
static volatile struct {
    uint64_t instructions, calls;
    int is_own;
} counted;

static void count_instruction(int number, siginfo_t *information, void *context)
{
    (void)number, (void)information;
    uintptr_t at = (uintptr_t)((ucontext_t *)context)->uc_mcontext.gregs[REG_RIP];
    int is_own = at >= (uintptr_t)__executable_start && at < (uintptr_t)etext;
    counted.instructions += (uint64_t)is_own;
    counted.calls += counted.is_own && !is_own;
    counted.is_own = is_own;
}

/* Makes the row's call, from what it begins with, with so many of its events. */
static void count_call(const struct bench_row *row, size_t events)
{
    row->prepare(row);
    work.event_count = events;
    counted.instructions = counted.calls = 0;
    __writeeflags(__readeflags() | TRAP_FLAG);
    uint32_t result = row->plex_call();
    __writeeflags(__readeflags() & ~(unsigned long long)TRAP_FLAG);
    if (result >= 65536 || counted.instructions == 0) {
        fprintf(stderr, "instructions: %s: the call was refused, or its instructions could not be counted\n",
                row->name);
        exit(2);
    }
}

/* Of an event, or of a record. */
static void count_row(const struct bench_row *row, double *instructions, double *calls)
{
    uint64_t first_instructions = 0, first_calls = 0;
    if (row->events != 0) {
        count_call(row, FIRST_EVENTS);
        first_instructions = counted.instructions, first_calls = counted.calls;
    }
    count_call(row, row->events == 0 ? 0 : FIRST_EVENTS + LATER_EVENTS);
    double units = row->events == 0 ? (double)row->records : LATER_EVENTS;
    *instructions = (double)(counted.instructions - first_instructions) / units;
    *calls = (double)(counted.calls - first_calls) / units;
}

static const struct bench_row *row_named(const char *name)
{
    for (size_t i = 0; i < bench_row_count; i++)
        if (strcmp(bench_rows[i].name, name) == 0)
            return &bench_rows[i];
    fprintf(stderr, "instructions: there is no row %s\n", name);
    exit(2);
}

int main(void)
{
    struct sigaction action = {.sa_sigaction = count_instruction, .sa_flags = SA_SIGINFO};
    sigaction(SIGTRAP, &action, NULL);
    int failed = 0;
    for (size_t i = 0; i < sizeof limits / sizeof limits[0]; i++) {
        double instructions, calls;
        count_row(row_named(limits[i].row), &instructions, &calls);
        int is_over = instructions > limits[i].instructions || calls > limits[i].calls;
        printf("instructions: %-22s %6.1f, calls %4.2f%s\n", limits[i].row, instructions, calls,
               is_over ? ": OVER ITS LIMIT" : "");
        failed |= is_over;
    }
    return failed;
}
