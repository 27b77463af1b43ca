/* Fresh machines, runs and walks of the plain engine, held against the library's. */
#ifndef PLAIN_RUNS_H
#define PLAIN_RUNS_H

#include <stdbool.h>

/* Whether they return and leave the same, and every code and reason was met, every sort of subtraction, an EXIT
 * that loses signals, a job in two blocks of one lock, and damaged states of every sort, refused and accepted; a
 * line says so. */
bool do_runs_agree(void);

#endif
