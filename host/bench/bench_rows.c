#include "bench_rows.h"
#include "bench_calls.h"
#include "bench_image.h"
#include "bench_jobs.h"
#include "bench_table.h"
#include "build.h"

#include <string.h>

/* The table is for rows that do not make another. */
static void begin(const struct bench_row *row)
{
    memset(&work, 0, sizeof work);
    memset(&by_plex, 0, sizeof by_plex);
    memset(&by_plain, 0, sizeof by_plain);
    work.image_len = PLEX_RECORD_SIZE * row->records;
    work.event_count = row->events;
    put_lone_rows(work.table);
}

static void prepare_mixed(const struct bench_row *row)
{
    begin(row);
    bench_mixed_image(work.image, row->records);
}

static void prepare_images(const struct bench_row *row, uint32_t count)
{
    begin(row);
    work.images_count = count;
    for (uint32_t i = 0; i < count; i++)
        bench_numbered_image(work.images[i], row->records, i);
}

static void prepare_4_images(const struct bench_row *row)
{
    prepare_images(row, 4);
}

static void prepare_64_images(const struct bench_row *row)
{
    prepare_images(row, IMAGES_MAX);
}

static void prepare_exit(const struct bench_row *row)
{
    begin(row);
    bench_exit_image(work.image, row->records);
}

/* Both states are made by the plain engine, so that a row times one call of the other alone. */
static void begin_state(void)
{
    plain_fresh_call();
    by_plex = by_plain;
}

static void prepare_run(const struct bench_row *row, void (*make_image)(uint8_t *image, size_t records))
{
    begin(row);
    make_image(work.image, row->records);
    bench_job_table(work.table);
    bench_job_events(work.events, row->events, row->records);
    begin_state();
}

static void prepare_jobs(const struct bench_row *row)
{
    prepare_run(row, bench_job_image);
}

/* One job in 16 events holds two signals, and its EXIT loses none: there are at most two trees. */
static void prepare_founders(const struct bench_row *row)
{
    prepare_run(row, bench_founder_image);
}

/* No thread waits. */
static void prepare_idle(const struct bench_row *row)
{
    prepare_mixed(row);
    begin_state();
}

/* The events so far made are carried out by the plain engine; the row begins with what they leave. */
static void begin_after_events(void)
{
    plain_fresh_call();
    plain_run_call();
    by_plex = by_plain;
}

/* Thread 0 waits for 1, 1 for 2, and so on to 7, which waits for 0. */
static void prepare_ring(const struct bench_row *row)
{
    begin(row);
    bench_ring_image(work.image, row->records);
    bench_ring_table(work.table);
    bench_ring_events(work.events);
    work.event_count = RING_EVENTS;
    begin_after_events();
}

/* Given the first events: the row begins with what they leave, and each of its own is a step of thread 0. */
static void begin_steps(const struct bench_row *row, size_t first_events)
{
    work.event_count = first_events;
    begin_after_events();
    bench_loop_events(work.events, row->events);
    work.event_count = row->events;
}

/* Given the image of a job without end that has so many values: each event does one of its statements. */
static void begin_loop(const struct bench_row *row, uint8_t values)
{
    bench_loop_start(work.events, values);
    begin_steps(row, LOOP_START_EVENTS);
}

/* Each event is a direct SEND of so many values, within a block or from one to the other of a group. */
static void prepare_sends(const struct bench_row *row, uint8_t blocks, uint8_t values)
{
    begin(row);
    bench_send_image(work.image, row->records, blocks, values);
    bench_group_table(work.table);
    begin_loop(row, values);
}

static void prepare_sends_of_0(const struct bench_row *row)
{
    prepare_sends(row, 1, 0);
}

static void prepare_sends_of_3(const struct bench_row *row)
{
    prepare_sends(row, 1, 3);
}

static void prepare_sends_of_25(const struct bench_row *row)
{
    prepare_sends(row, 1, PLEX_REGISTERS);
}

static void prepare_sends_in_group(const struct bench_row *row)
{
    prepare_sends(row, 2, 3);
}

/* Each event is the one statement of the job. */
static void prepare_loop(const struct bench_row *row, const struct bench_loop *loop)
{
    begin(row);
    bench_loop_image(work.image, row->records, loop);
    begin_loop(row, PLEX_REGISTERS);
}

static void prepare_additions(const struct bench_row *row)
{
    prepare_loop(row, &bench_addition);
}

static void prepare_divisions(const struct bench_row *row)
{
    prepare_loop(row, &bench_division);
}

static void prepare_register_divisions(const struct bench_row *row)
{
    prepare_loop(row, &bench_register_division);
}

static void prepare_packings(const struct bench_row *row)
{
    prepare_loop(row, &bench_packing);
}

static void prepare_unpackings(const struct bench_row *row)
{
    prepare_loop(row, &bench_unpacking);
}

static void prepare_decimal_sums(const struct bench_row *row)
{
    prepare_loop(row, &bench_decimal_sum);
}

/* As much as a machine can hold, and events that move it about. */
static void prepare_full(const struct bench_row *row)
{
    begin(row);
    bench_full_image(work.image, row->records);
    bench_full_start(work.events);
    begin_steps(row, FULL_START_EVENTS);
    work.trap_count = row->events / FULL_EVENTS_A_TRAP;
}

/* Two guests with the opcodes up to EXIT, in blocks of their own. */
static void prepare_guests(const struct bench_row *row)
{
    begin(row);
    bench_guest_image(work.image, row->records, 0);
    bench_guest_image(work.second_image, row->records, GUEST_BLOCKS);
}

#define CHECK prepare_mixed, plex_check_call, plain_check_call
#define IN_TURN plex_check_in_turn_call, plain_check_in_turn_call
#define FRESH prepare_mixed, plex_fresh_call, plain_fresh_call
#define RUN prepare_jobs, plex_run_call, plain_run_call
#define WALK_RING prepare_ring, plex_walk_call, plain_walk_call
#define LINK prepare_guests, plex_link_call, plain_link_call

const struct bench_row bench_rows[] = {
    {"check, 1 record", 1, 0, CHECK_PLOT, CHECK},
    {"check, 16 records", 16, 0, CHECK_PLOT, CHECK},
    {"check, 128 records", 128, 0, CHECK_PLOT, CHECK},
    {"check, 512 records", 512, 0, CHECK_PLOT, CHECK},
    {"check, 512 EXIT", 512, 0, NO_PLOT, prepare_exit, plex_check_call, plain_check_call},
    {"check, 4 images of 512", 512, 0, NO_PLOT, prepare_4_images, IN_TURN},
    {"check, 64 images of 512", 512, 0, NO_PLOT, prepare_64_images, IN_TURN},
    {"fresh, 1 record", 1, 0, FRESH_PLOT, FRESH},
    {"fresh, 16 records", 16, 0, FRESH_PLOT, FRESH},
    {"fresh, 128 records", 128, 0, FRESH_PLOT, FRESH},
    {"fresh, 512 records", 512, 0, FRESH_PLOT, FRESH},
    {"walk, nobody waits", 16, 0, NO_PLOT, prepare_idle, plex_walk_call, plain_walk_call},
    {"walk, ring, 16 records", 16, 0, WALK_PLOT, WALK_RING},
    {"walk, ring, 128 records", 128, 0, WALK_PLOT, WALK_RING},
    {"walk, ring, 512 records", 512, 0, WALK_PLOT, WALK_RING},
    {"link, 2 x 32 records", 32, 0, LINK_PLOT, LINK},
    {"link, 2 x 128 records", 128, 0, LINK_PLOT, LINK},
    {"link, 2 x 256 records", 256, 0, LINK_PLOT, LINK},
    {"run, 16 records", 16, 1, SMALL_RUN_PLOT, RUN},
    {"run, 16 records", 16, 16, SMALL_RUN_PLOT, RUN},
    {"run, 16 records", 16, 64, SMALL_RUN_PLOT, RUN},
    {"run, 16 records", 16, 256, SMALL_RUN_PLOT, RUN},
    {"run, 16 records", 16, 1024, SMALL_RUN_PLOT, RUN},
    {"run, 512 records", 512, 1, FULL_RUN_PLOT, RUN},
    {"run, 512 records", 512, 16, FULL_RUN_PLOT, RUN},
    {"run, 512 records", 512, 64, FULL_RUN_PLOT, RUN},
    {"run, 512 records", 512, 256, FULL_RUN_PLOT, RUN},
    {"run, 512 records", 512, 1024, FULL_RUN_PLOT, RUN},
    {"run, SEND of 0 values", 16, 1024, NO_PLOT, prepare_sends_of_0, plex_run_call, plain_run_call},
    {"run, SEND of 3 values", 16, 1024, NO_PLOT, prepare_sends_of_3, plex_run_call, plain_run_call},
    {"run, SEND of 25 values", 16, 1024, NO_PLOT, prepare_sends_of_25, plex_run_call, plain_run_call},
    {"run, SEND in a group", 16, 1024, NO_PLOT, prepare_sends_in_group, plex_run_call, plain_run_call},
    {"run, new trees", 16, 1024, NO_PLOT, prepare_founders, plex_run_call, plain_run_call},
    {"run, ASSIGN add", 16, 1024, NO_PLOT, prepare_additions, plex_run_call, plain_run_call},
    {"run, DIVIDE", 16, 1024, NO_PLOT, prepare_divisions, plex_run_call, plain_run_call},
    {"run, DIVIDE, registers", 16, 1024, NO_PLOT, prepare_register_divisions, plex_run_call, plain_run_call},
    {"run, PACK", 16, 1024, NO_PLOT, prepare_packings, plex_run_call, plain_run_call},
    {"run, UNPACK", 16, 1024, NO_PLOT, prepare_unpackings, plex_run_call, plain_run_call},
    {"run, DECIMAL ADD", 16, 1024, NO_PLOT, prepare_decimal_sums, plex_run_call, plain_run_call},
    {"run, full machine", 512, 0, NO_PLOT, prepare_full, plex_run_call, plain_run_call},
    {"run, full machine", 512, 1023, NO_PLOT, prepare_full, plex_run_call, plain_run_call},
};
const size_t bench_row_count = sizeof bench_rows / sizeof bench_rows[0];
