/* Sentences about what went wrong: which file, which part of it, and why. */
#include "command.h"
#include "explain.h"
#include "formats.h"
#include "names.h"
#include "outputs.h"

#include <stdarg.h>
#include <stdlib.h>
#include <string.h>

void complain(const char *format, ...)
{
    va_list arguments;
    flush_printed();
    clear_progress();
    va_start(arguments, format);
    fprintf(stderr, "%splex:%s ", colour_on(stderr, RED), colour_off(stderr));
    vfprintf(stderr, format, arguments);
    fprintf(stderr, "\n");
    va_end(arguments);
}

bool is_read(const struct file *file, int failed)
{
    if (failed)
        complain("%s: cannot be read: %s", file->path, strerror(failed));
    return !failed;
}

bool lend(struct file *file, const char *path, size_t limit)
{
    return is_read(file, read_file(file, path, limit));
}

bool is_written(const char *path, int failed)
{
    if (failed)
        complain("%s: cannot be written: %s", path, strerror(failed));
    return !failed;
}

bool complete(struct output *output, const char *path, const uint8_t *bytes, size_t size)
{
    return is_written(path, complete_output(output, path, bytes, size));
}

bool put_in_place(struct output *output, bool is_complete)
{
    const struct output *at_fault;
    bool is_in_place = is_complete && is_printed() && is_written(output->path, place_outputs(output, 1, &at_fault));
    drop_output(output);
    return is_in_place;
}

void free_lent(struct lent *lent)
{
    free(lent->image.bytes);
    free(lent->second_image.bytes);
    free(lent->table.bytes);
    free(lent->words.bytes);
    free(lent->state.bytes);
    free(lent->events.bytes);
}

uint64_t length_of(const struct file *file, size_t limit)
{
    return file->size > limit ? file->whole : file->size;
}

void report_length(const struct file *file, size_t limit, const char *expected)
{
    uint64_t size = length_of(file, limit);
    bool is_known = file->size <= limit || size > limit;
    complain("%s: %s%s bytes; %s", file->path, is_known ? "" : "more than ", amount_of(is_known ? size : limit).text,
             expected);
}

/* A table or a state of the wrong length, which may be that of a former format. */
static void report_kind_length(const struct file *file, enum kind kind)
{
    const struct format *format = &formats[kind];
    const struct former_format *former = find_former(kind, file->size);
    if (former == NULL)
        report_length(file, format->size, format->length);
    else
        complain("%s: %s bytes, as a %s had in %s; today's has %s: plex upgrade %s takes it over", file->path,
                 amount_of(file->size).text, format->name, former->versions, amount_of(format->size).text,
                 format->name);
}

bool is_state_long(const struct file *state)
{
    if (state->size != PLEX_STATE_SIZE)
        report_kind_length(state, STATE);
    return state->size == PLEX_STATE_SIZE;
}

static void add_cause(struct line *line, const struct line *why)
{
    if (why->length != 0)
        add(line, "\n      %s", why->text);
}

static void report_row(const struct lent *lent, uint32_t block)
{
    const uint8_t *row = row_at(lent->table.bytes, block);
    struct line line = {0}, why = {0};
    explain_row(&why, lent->table.bytes, block);
    add_cause(&line, &why);
    complain("%s: block %u (thread %u, kind %u, lock %u) has a field out of range%s", lent->table.path, block,
             row[PLEX_ROW_THREAD], row[PLEX_ROW_KIND], row[PLEX_ROW_LOCK], line.text);
}

uint32_t records_of(const struct file *image)
{
    return (uint32_t)(image->size / PLEX_RECORD_SIZE);
}

struct groups groups_of(const struct lent *lent)
{
    uint32_t records = lent->table.size == PLEX_TABLE_SIZE ? records_of(&lent->image) : 0;
    return find_groups(lent->image.bytes, records, lent->table.bytes);
}

static void report_record(const struct lent *lent, uint32_t label)
{
    struct line line = {0}, why = {0};
    add_statement(&line, record_at(lent->image.bytes, label));
    explain_record(&why, lent->image.bytes, records_of(&lent->image), label);
    add_cause(&line, &why);
    complain("%s: the record at label %u (block %u) breaks a rule: %s", lent->image.path, label,
             record_at(lent->image.bytes, label)[PLEX_RECORD_BLOCK], line.text);
}

static void report_state(const struct lent *lent)
{
    struct line line = {0}, why = {0};
    explain_state(&why, lent->image.bytes, records_of(&lent->image), lent->table.bytes, lent->state.bytes);
    add_cause(&line, &why);
    complain("%s: not well formed with %s and %s%s", lent->state.path, lent->image.path, lent->table.path, line.text);
}

static void report_event(const struct lent *lent, uint32_t index)
{
    const uint8_t *event = lent->events.bytes + PLEX_EVENT_SIZE * index;
    struct line line = {0}, why = {0};
    add_event(&line, event);
    explain_event(&why, lent->image.bytes, records_of(&lent->image), event);
    add_cause(&line, &why);
    complain("%s: event %s breaks a rule: %s", lent->events.path, amount_of(lent->events_before + index).text,
             line.text);
}

/* Two images, each of which keeps the rules. */
static void report_link(const struct lent *lent, uint32_t number)
{
    struct line line = {0}, why = {0};
    explain_link(&why, lent->image.bytes, records_of(&lent->image), lent->second_image.bytes,
                 records_of(&lent->second_image));
    add_cause(&line, &why);
    complain("%s and %s: %s%s", lent->image.path, lent->second_image.path, refusal_name(number), line.text);
}

static void report(const struct lent *lent, uint32_t number, uint32_t place)
{
    switch (number) {
    case PLEX_BAD_IMAGE_LENGTH:
        report_length(&lent->image, LONGEST_IMAGE, "an image is 84 bytes a record, 1 to 512 records");
        break;
    case PLEX_BAD_TABLE_LENGTH:
        report_kind_length(&lent->table, TABLE);
        break;
    case PLEX_BAD_TABLE_FIELD:
        report_row(lent, place);
        break;
    case PLEX_BAD_RECORD:
        report_record(lent, place);
        break;
    case PLEX_BAD_STATE_LENGTH:
        is_state_long(&lent->state);
        break;
    case PLEX_BAD_STATE:
        report_state(lent);
        break;
    case PLEX_BAD_EVENT:
        report_event(lent, place);
        break;
    case PLEX_BAD_WORDS_LENGTH:
        report_length(&lent->words, PLEX_WORDS_SIZE, "initial words are 512 bytes");
        break;
    case PLEX_SHARED_BLOCK:
    case PLEX_TOO_MANY_RECORDS:
        report_link(lent, number);
        break;
    default:
        complain("%s", refusal_name(number));
    }
}

bool was_accepted(const struct lent *lent, uint32_t result)
{
    uint32_t number = PLEX_NUMBER(result), place = PLEX_PLACE(result);
    uint64_t events_before = number == PLEX_BAD_EVENT ? lent->events_before : 0;
    if (number == 0)
        return true;
    report(lent, number, place);
    fprintf(stderr, "      refused with number %u, place %s\n", number, amount_of(events_before + place).text);
    return false;
}
