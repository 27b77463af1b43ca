/* The figures that a host plans with, as README.md and docs/HOSTS.md have them. */
#ifndef BENCH_FIGURES_H
#define BENCH_FIGURES_H

#include "bench_rows.h"

/* Prints the lines of their tables, given a result for each row, in the order of bench_rows. */
void bench_print_figures(const struct bench_result *results);

#endif
