/* Runs programs that time the same rows, with the engines at different places in each of them, several times in turn.
 * Of each row it prints the medians over all runs, and the range of the ratios; then which rows are above 1.0, the
 * figures that the papers have, and where the plots are.
 *
 * Use: bench FOLDER PROGRAM..    a folder for the plots */
#define _POSIX_C_SOURCE 200809L

#include "bench_figures.h"
#include "bench_plot.h"

#include <stdio.h>
#include <stdlib.h>

enum { RUNS = 3, PROGRAMS_MAX = 8, SAMPLES_MAX = RUNS * PROGRAMS_MAX, ROWS_MAX = 64, POINTS_MAX = 8 };

static const struct {
    const char *file, *title;
    enum bench_axis axis;
} plots[PLOTS] = {
    [CHECK_PLOT] = {"check.svg", "Check of an image", RECORDS_AXIS},
    [FRESH_PLOT] = {"fresh.svg", "Fresh", RECORDS_AXIS},
    [WALK_PLOT] = {"walk.svg", "Walk along a ring of 8 threads", RECORDS_AXIS},
    [LINK_PLOT] = {"link.svg", "Link of two images of the same length", PAIR_AXIS},
    [SMALL_RUN_PLOT] = {"run-small.svg", "Run with an image of 16 records", EVENTS_AXIS},
    [FULL_RUN_PLOT] = {"run-full.svg", "Run with an image of 512 records", EVENTS_AXIS},
};

/* Of a row, what each run of each program said. */
static struct {
    double plex_ns[SAMPLES_MAX], plain_ns[SAMPLES_MAX], ratio[SAMPLES_MAX];
} samples[ROWS_MAX];

static struct bench_result results[ROWS_MAX];

/* Runs the program, which writes a line for each row. Returns 0, or -1 if it failed. */
static int take_sample(const char *program, size_t sample)
{
    FILE *lines = popen(program, "r");
    if (lines == NULL)
        return -1;
    size_t row = 0;
    while (row < bench_row_count && fscanf(lines, "%lf %lf %lf", &samples[row].plex_ns[sample],
                                           &samples[row].plain_ns[sample], &samples[row].ratio[sample]) == 3)
        row++;
    return pclose(lines) == 0 && row == bench_row_count ? 0 : -1;
}

/* Each program in turn, so that a machine that slows down for a while slows down all of them. */
static int take_samples(char **programs, size_t count)
{
    for (size_t sample = 0; sample < RUNS * count; sample++) {
        const char *program = programs[sample % count];
        fprintf(stderr, "run %zu of %zu, %s\n", sample + 1, RUNS * count, program);
        if (take_sample(program, sample) != 0) {
            fprintf(stderr, "bench: %s failed\n", program);
            return -1;
        }
    }
    return 0;
}

static int by_size(const void *a, const void *b)
{
    double x = *(const double *)a, y = *(const double *)b;
    return (x > y) - (x < y);
}

/* Sorts the values. Of an even number of them, the mean of the two in the middle. */
static double median(double *values, size_t count)
{
    qsort(values, count, sizeof values[0], by_size);
    return (values[(count - 1) / 2] + values[count / 2]) / 2;
}

static void work_out_results(size_t count)
{
    for (size_t i = 0; i < bench_row_count; i++) {
        double ratio = median(samples[i].ratio, count);
        results[i] = (struct bench_result){median(samples[i].plex_ns, count), median(samples[i].plain_ns, count), ratio,
                                           samples[i].ratio[0], samples[i].ratio[count - 1]};
    }
}

static void print_rows(void)
{
    printf("%-24s %6s %10s %10s %10s  %s\n", "row", "events", "plex ns", "plain ns", "plex/plain", "range");
    for (size_t i = 0; i < bench_row_count; i++) {
        const struct bench_result *result = &results[i];
        printf("%-24s ", bench_rows[i].name);
        if (bench_rows[i].events == 0)
            printf("%6s", "");
        else
            printf("%6zu", bench_rows[i].events);
        printf(" %10.1f %10.1f %10.2f  %.2f-%.2f\n", result->plex_ns, result->plain_ns, result->ratio, result->least,
               result->most);
    }
    printf("Run is timed by the event, with all tests that a call begins with; the others by the call.\n");
}

static void print_rows_above(void)
{
    size_t above = 0;
    for (size_t i = 0; i < bench_row_count; i++) {
        if (results[i].ratio <= 1)
            continue;
        printf("%s%s", above++ == 0 ? "ABOVE 1.0: " : "; ", bench_rows[i].name);
        if (bench_rows[i].events != 0)
            printf(", %zu events", bench_rows[i].events);
        printf(" (%.3f)", results[i].ratio);
    }
    printf("%s\n", above == 0 ? "No row is above 1.0." : "");
}

static int draw(const char *folder, enum bench_plots plot)
{
    struct bench_point points[POINTS_MAX];
    size_t count = 0;
    for (size_t i = 0; i < bench_row_count; i++) {
        const struct bench_row *row = &bench_rows[i];
        if (row->plot == plot)
            points[count++] = (struct bench_point){row->events == 0 ? row->records : row->events, results[i].plex_ns,
                                                   results[i].plain_ns};
    }
    char path[4096];
    snprintf(path, sizeof path, "%s/%s", folder, plots[plot].file);
    if (bench_plot(path, plots[plot].title, plots[plot].axis, points, count) == 0)
        return 0;
    fprintf(stderr, "bench: %s: cannot be written\n", path);
    return 1;
}

static int draw_all(const char *folder)
{
    int failed = 0;
    for (enum bench_plots plot = 0; plot < PLOTS; plot++)
        failed |= draw(folder, plot);
    if (failed)
        return failed;
    printf("Plots in %s:", folder);
    for (enum bench_plots plot = 0; plot < PLOTS; plot++)
        printf(" %s", plots[plot].file);
    printf("\n");
    return 0;
}

int main(int argc, char **argv)
{
    size_t count = argc < 3 ? 0 : (size_t)argc - 2;
    if (count == 0 || count > PROGRAMS_MAX || bench_row_count > ROWS_MAX) {
        fprintf(stderr, "use: bench FOLDER PROGRAM..\n");
        return 2;
    }
    if (take_samples(argv + 2, count) != 0)
        return 1;
    work_out_results(RUNS * count);
    print_rows();
    print_rows_above();
    bench_print_figures(results);
    return draw_all(argv[1]);
}
