/* The plain engine: the Core PLEX plug-in machine written in ordinary C, to
 * measure the proved engine against. It works in place on the lent bytes and
 * keeps nothing between calls. The lent buffers must not overlap. */
#ifndef PLAIN_H
#define PLAIN_H

#include <stddef.h>
#include <stdint.h>

/* Every call returns 65,536 x number + place for the first cause that applies,
 * and has then altered no byte; 0 is success, but for the walk. */

uint32_t plain_check(const uint8_t *image, size_t image_len, const uint8_t *table, size_t table_len);

/* Makes the state a fresh machine with the 512 initial bytes as shared words. */
uint32_t plain_fresh(const uint8_t *image, size_t image_len, const uint8_t *table, size_t table_len,
                     const uint8_t *words, size_t words_len, uint8_t *state, size_t state_len);

/* Carries out the events in order and writes the two answer bytes of each. */
uint32_t plain_run(const uint8_t *image, size_t image_len, const uint8_t *table, size_t table_len, uint8_t *state,
                   size_t state_len, const uint8_t *events, size_t events_len, uint8_t *answers, size_t answers_len);

/* Writes the threads met along the waits from a thread; returns their count,
 * plus 256 if a ring closed. */
uint32_t plain_walk(const uint8_t *image, size_t image_len, const uint8_t *table, size_t table_len,
                    const uint8_t *state, size_t state_len, uint32_t thread, uint8_t *met, size_t met_len);

/* Writes the first image and behind it the second, with its labels moved along. */
uint32_t plain_link(const uint8_t *first, size_t first_len, const uint8_t *second, size_t second_len,
                    const uint8_t *table, size_t table_len, uint8_t *out, size_t out_len);

#endif
