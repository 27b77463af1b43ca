/* The rules of two images that are to be linked, in words. */
#include "amounts.h"
#include "explain.h"

void explain_link(struct line *why, const uint8_t *first, uint32_t first_records, const uint8_t *second,
                  uint32_t second_records)
{
    uint32_t shared = named_blocks(first, first_records) & named_blocks(second, second_records);
    uint32_t records = first_records + second_records;
    if (shared != 0) {
        add(why, "both have records in ");
        add_blocks(why, shared);
    } else if (records > PLEX_RECORDS_MAX) {
        add(why, "%u and %u records are %s, and an image has at most %d", first_records, second_records,
            amount_of(records).text, PLEX_RECORDS_MAX);
    }
}
