/* The names of unfinished files, which a signal that ends the program removes. */
#ifndef UNFINISHED_H
#define UNFINISHED_H

/* The names stay the caller's, and must stay until they are forgotten. */
void note_unfinished(char *name);
void forget_unfinished(const char *name);

/* Between the two no signal is handled. */
void hold_signals(void);
void let_signals_through(void);

/* From now on, a signal that ends the program removes its unfinished files first. A signal that
 * the program was started to ignore stays ignored. */
void remove_unfinished_on_signals(void);

#endif
