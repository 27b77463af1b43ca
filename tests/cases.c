#include "cases.h"
#include "build.h"

#include <stdio.h>
#include <stdlib.h>

static size_t load(const char *name, const char *part, uint8_t *into, size_t room)
{
    char path[4096];
    snprintf(path, sizeof path, "%s.%s", name, part);
    FILE *file = fopen(path, "rb");
    if (file == NULL) {
        fprintf(stderr, "%s cannot be read\n", path);
        exit(2);
    }
    size_t count = fread(into, 1, room, file);
    fclose(file);
    return count;
}

void load_trial(struct trial *trial, const char *name)
{
    trial->image_len = load(name, "image", trial->image, sizeof trial->image);
    load(name, "table", trial->table, sizeof trial->table);
    load(name, "words", trial->words, sizeof trial->words);
    trial->events_len = load(name, "events", trial->events, sizeof trial->events);
    load(name, "state", trial->state, sizeof trial->state);
    trial->answers_len = load(name, "answers", trial->answers, sizeof trial->answers);
}

void put_caller(uint8_t *image, uint32_t block, uint32_t first_label, uint32_t called)
{
    uint8_t own = (uint8_t)block;
    uint16_t to = (uint16_t)called, back = (uint16_t)(first_label + 1);
    const struct statement caller[CALLER_RECORDS] = {{own, PLEX_EXTERNAL, PLEX_CALL, 0, to, back, 0, {NUMBER(0)}},
                                                     {own, PLEX_NO_ENTRY, PLEX_EXIT, 0, 0, 0, 0, {NUMBER(0)}},
                                                     {own, PLEX_DIRECT, PLEX_RETURN, 0, 0, 0, 0, {NUMBER(0)}}};
    put_statements(image, caller, CALLER_RECORDS);
}

/* The first block that no record is in, or PLEX_BLOCKS. */
static uint32_t free_block(const struct trial *trial)
{
    uint32_t named = named_blocks(trial->image, (uint32_t)(trial->image_len / PLEX_RECORD_SIZE));
    uint32_t block = 0;
    while (named >> block & 1)
        block++;
    return block;
}

bool has_guest(const struct trial *trial)
{
    return free_block(trial) < PLEX_BLOCKS && trial->image_len + GUEST_SIZE <= sizeof trial->image;
}

void make_guest(uint8_t *image, const struct trial *trial, uint32_t first_label)
{
    put_caller(image, free_block(trial), first_label, first_label + CALLED);
}
