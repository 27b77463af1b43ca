#include "bench_figures.h"

#include <math.h>
#include <stdio.h>
#include <stdlib.h>
#include <string.h>

/* The row with this name and so many events, and how many of what is timed there; no name for no figure. */
struct figure {
    const char *row;
    size_t events, times;
};

/* What takes so long with an image of 16 records, and with one of 512. */
static const struct {
    const char *what;
    struct figure small, full;
} lines[] = {
    {"an event, in calls of 1,024", {"run, 16 records", 1024, 1}, {"run, 512 records", 1024, 1}},
    {"one event a call", {"run, 16 records", 1, 1}, {"run, 512 records", 1, 1}},
    {"a check, of one image again and again", {"check, 16 records", 0, 1}, {"check, 512 records", 0, 1}},
    {"a first check: each of 64 images in turn", {NULL, 0, 0}, {"check, 64 images of 512", 0, 1}},
    {"the longest call found: 1,023 events, 25 operands a record, 16 full trees",
     {NULL, 0, 0},
     {"run, full machine", 1023, 1023}},
    {"the tests of image and state in it", {NULL, 0, 0}, {"run, full machine", 0, 1}},
};

static const size_t batches[] = {1, 16, 64, 256, 1024};

static double plex_ns(const struct bench_result *results, const char *name, size_t events)
{
    for (size_t i = 0; i < bench_row_count; i++)
        if (strcmp(bench_rows[i].name, name) == 0 && bench_rows[i].events == events)
            return results[i].plex_ns;
    fprintf(stderr, "bench: there is no row %s, %zu\n", name, events);
    exit(1);
}

/* A cell of a table, with a number as 2,354. */
static void print_number(double number)
{
    long rounded = lround(number);
    if (rounded >= 1000)
        printf(" %ld,%03ld |", rounded / 1000, rounded % 1000);
    else
        printf(" %ld |", rounded);
}

/* A cell with a time, in microseconds from one on. */
static void print_time(const struct bench_result *results, const struct figure *figure)
{
    if (figure->row == NULL) {
        printf(" |");
        return;
    }
    double ns = (double)figure->times * plex_ns(results, figure->row, figure->events);
    if (ns < 999.5)
        printf(" %.0f ns |", ns);
    else
        printf(" %.*f µs |", ns < 9950 ? 1 : 0, ns / 1000);
}

void bench_print_figures(const struct bench_result *results)
{
    printf("\nFigures of docs/HOSTS.md, nanoseconds an event:\n\n"
           "| events a call | image of 16 records | image of 512 records |\n|---|---|---|\n");
    for (size_t i = 0; i < sizeof batches / sizeof batches[0]; i++) {
        printf("|");
        print_number((double)batches[i]);
        print_number(plex_ns(results, "run, 16 records", batches[i]));
        print_number(plex_ns(results, "run, 512 records", batches[i]));
        printf("\n");
    }
    printf("\nFigures of README.md:\n\n| what | image of 16 records | image of 512 records |\n|---|---|---|\n");
    for (size_t i = 0; i < sizeof lines / sizeof lines[0]; i++) {
        printf("| %s |", lines[i].what);
        print_time(results, &lines[i].small);
        print_time(results, &lines[i].full);
        printf("\n");
    }
}
