/* Which lock guards which blocks of an image. */
#ifndef GROUPS_H
#define GROUPS_H

#include "fields.h"

/* For each lock the blocks that it guards, of those that an image has records in; bit b is block b. */
struct groups {
    uint32_t blocks[PLEX_LOCKS];
};

/* It takes any bytes of the right length, also such as the library refuses. */
struct groups find_groups(const uint8_t *image, uint32_t records, const uint8_t *table);

#endif
