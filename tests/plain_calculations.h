/* Calculations of the plain engine, held against the library's, one at a time. */
#ifndef PLAIN_CALCULATIONS_H
#define PLAIN_CALCULATIONS_H

#include <stdbool.h>

/* Whether they leave the same, and every sort of division and of packed decimal was met; a line says so. */
bool do_calculations_agree(void);

#endif
