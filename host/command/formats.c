#include "formats.h"
#include "amounts.h"
#include "build.h"
#include "explain.h"

#include <string.h>

/* Format 2 and before: rows of thread and kind, and lock b guarded block b. */
enum { ROW_SIZE_2 = 2, TABLE_SIZE_2 = 32 };

/* Format 1: threads held no signals, and their records ended before the held count. */
enum { THREAD_SIZE_1 = 75, TREE_COUNT_1 = 1112, STATE_SIZE_1 = 7929 };

static void widen_table(uint8_t *today, const uint8_t *bytes)
{
    for (uint32_t block = 0; block < PLEX_BLOCKS; block++) {
        const uint8_t *row = bytes + ROW_SIZE_2 * block;
        put_row(today, block, row[PLEX_ROW_THREAD], row[PLEX_ROW_KIND], block);
    }
}

static void lengthen_state(uint8_t *today, const uint8_t *bytes)
{
    memset(today, 0, PLEX_STATE_SIZE);
    memcpy(today, bytes, PLEX_STATE_THREADS);
    for (uint32_t thread = 0; thread < PLEX_THREADS; thread++)
        memcpy(today + PLEX_STATE_THREADS + PLEX_THREAD_SIZE * thread,
               bytes + PLEX_STATE_THREADS + THREAD_SIZE_1 * thread, THREAD_SIZE_1);
    memcpy(today + PLEX_STATE_TREE_COUNT, bytes + TREE_COUNT_1, STATE_SIZE_1 - TREE_COUNT_1);
}

static const struct former_format former_formats[] = {
    {TABLE, TABLE_SIZE_2, "format 2 or before", widen_table},
    {STATE, STATE_SIZE_1, "format 1", lengthen_state},
};
enum { FORMER_FORMATS = sizeof former_formats / sizeof former_formats[0] };

static void explain_table(struct line *why, const uint8_t *table)
{
    for (uint32_t block = 0; block < PLEX_BLOCKS && why->length == 0; block++) {
        struct line fault = {0};
        explain_row(&fault, table, block);
        if (fault.length != 0)
            add(why, "block %u: %s", block, fault.text);
    }
}

const struct format formats[KINDS] = {
    [TABLE] = {"table", PLEX_TABLE_SIZE, "a block table is 48 bytes: thread, kind and lock of 16 blocks",
               explain_table},
    [STATE] = {"state", PLEX_STATE_SIZE, "a state is 9,633 bytes", explain_state_alone},
};

enum kind find_kind(const char *name)
{
    enum kind kind = 0;
    while (kind < KINDS && strcmp(formats[kind].name, name) != 0)
        kind++;
    return kind;
}

const struct former_format *find_former(enum kind kind, uint64_t size)
{
    for (size_t i = 0; i < FORMER_FORMATS; i++)
        if (former_formats[i].kind == kind && former_formats[i].size == size)
            return &former_formats[i];
    return NULL;
}

void add_former_lengths(struct line *line, enum kind kind)
{
    for (size_t i = 0; i < FORMER_FORMATS; i++)
        if (former_formats[i].kind == kind)
            add(line, "%sa %s of %s is %s bytes", line->length == 0 ? "" : ", ", formats[kind].name,
                former_formats[i].versions, amount_of(former_formats[i].size).text);
}
