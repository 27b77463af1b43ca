/* Link: both images checked, copied one behind the other, and the second's labels moved along. */
#include "plain.h"
#include "plain_rules.h"

/* The lower number counts, and of two that are the same the first. */
static uint32_t first_refusal(uint32_t of_first, uint32_t of_second)
{
    if (of_first == 0 || (of_second != 0 && PLEX_NUMBER(of_second) < PLEX_NUMBER(of_first)))
        return of_second;
    return of_first;
}

/* Given a checked image. Labels A and B are the halves of one number, and so is what is added to them:
 * nothing to a label that has to be zero. No sum reaches 512, so A's does not run over into B's. */
static void move_labels(uint8_t *image, uint32_t records, uint32_t by)
{
    for (uint32_t label = 0; label < records; label++, image += PLEX_RECORD_SIZE) {
        const struct opcode_rule *rule = &plain_opcode_rules[image[PLEX_RECORD_OPCODE]];
        uint32_t used = ~get32(rule->zero_bits + PLEX_RECORD_A);
        put32(image + PLEX_RECORD_A, get32(image + PLEX_RECORD_A) + ((by << 16 | by) & used));
    }
}

uint32_t plain_link(const uint8_t *first, size_t first_len, const uint8_t *second, size_t second_len,
                    const uint8_t *table, size_t table_len, uint8_t *out, size_t out_len)
{
    uint32_t refusal = first_refusal(plain_check(first, first_len, table, table_len),
                                     plain_check(second, second_len, table, table_len));
    if (refusal != 0)
        return refusal;
    uint32_t first_records = (uint32_t)(first_len / PLEX_RECORD_SIZE);
    uint32_t second_records = (uint32_t)(second_len / PLEX_RECORD_SIZE);
    if ((named_blocks(first, first_records) & named_blocks(second, second_records)) != 0)
        return refuse(PLEX_SHARED_BLOCK, 0);
    if (first_records + second_records > PLEX_RECORDS_MAX)
        return refuse(PLEX_TOO_MANY_RECORDS, 0);
    if (out_len != first_len + second_len)
        return refuse(PLEX_BAD_OUTPUT_LENGTH, 0);
    memcpy(out, first, first_len);
    memcpy(out + first_len, second, second_len);
    move_labels(out + first_len, second_records, first_records);
    return 0;
}
