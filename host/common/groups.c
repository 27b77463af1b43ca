#include "groups.h"

struct groups find_groups(const uint8_t *image, uint32_t records, const uint8_t *table)
{
    struct groups groups = {{0}};
    for (uint32_t label = 0; label < records; label++) {
        uint32_t block = record_at(image, label)[PLEX_RECORD_BLOCK];
        if (block < PLEX_BLOCKS && lock_of(table, block) < PLEX_LOCKS)
            groups.blocks[lock_of(table, block)] |= 1u << block;
    }
    return groups;
}
