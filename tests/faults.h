/* Faults that the library refuses, one at a time, and what is said of each; and sound bytes, of which nothing
 * is said. */
#ifndef FAULTS_H
#define FAULTS_H

#include <stdint.h>

/* Tries all of them: how many faults are not refused or not explained in the right words, and how many sound
 * records and states are refused or explained. */
uint32_t try_faults(void);

#endif
