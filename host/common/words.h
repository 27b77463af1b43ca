/* Records, events, answers and parts of the state as words for a person. They take any bytes of
 * the right length, also such as the library refuses. */
#ifndef WORDS_H
#define WORDS_H

#include "groups.h"

/* A line in the making; what does not fit is left off. */
struct line {
    char text[1024];
    size_t length;
};

void add(struct line *line, const char *format, ...) __attribute__((format(printf, 2, 3)));

/* As "CALL to 3 WITH r0, return to 1": r is a register, w a shared word of the record's block. In
 * "DIVIDE r0, w0 := r1 / 10, on to 4" the quotient goes to r0, and the remainder to w0. In
 * "UNPACK r0 := packed 0042, on to 4" the number is read as a packed one, and is 0x0042. */
void add_statement(struct line *line, const uint8_t *record);

/* As "  3  direct    CALL to 6 WITH r0, return to 4": label, entry and statement. */
void add_record(struct line *line, const uint8_t *image, uint32_t label);

/* A row of the block table, as "thread 0, CMX, lock 9". */
void add_row(struct line *line, const uint8_t *row);

/* As "arrival at 0 WITH 25" or "step of thread 3". */
void add_event(struct line *line, const uint8_t *event);

/* As "block 4", "blocks 0 4" or "no block of the image"; bit b is block b. */
void add_blocks(struct line *line, uint32_t blocks);

/* As "lock 9 of blocks 1 2"; where the groups are not known, and NULL, as "lock 9". */
void add_lock(struct line *line, uint32_t lock, const struct groups *groups);

/* As "waiting for lock 9 of blocks 1 2" or "EXIT, 2 held signals lost". */
void add_answer(struct line *line, const uint8_t *answer, const struct groups *groups);

/* As "at label 3, locks 0 1, return labels 1"; an idle thread is "idle" in place of "at". */
void add_place(struct line *line, const uint8_t *thread);

/* The same, and if it holds signals, ", held labels 4 5". */
void add_thread(struct line *line, const uint8_t *thread);

/* As "r0=25 r2=7", or "none". */
void add_registers(struct line *line, const uint8_t *thread);

/* As "label 4 WITH 7, 9". */
void add_signal(struct line *line, const uint8_t *signal);

#endif
