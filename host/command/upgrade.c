/* plex upgrade: a table or a state of a former format becomes one of today's. */
#include "command.h"
#include "formats.h"
#include "outputs.h"

#include <stdlib.h>

/* A length that no former format of the kind has, but perhaps one of the other kind. */
static void report_other_length(const struct file *file, enum kind kind)
{
    struct line line = {0};
    enum kind other = kind == TABLE ? STATE : TABLE;
    const struct former_format *former = find_former(other, length_of(file, formats[kind].size));
    if (file->size == formats[kind].size) {
        complain("%s: %s bytes; a %s of format %d already: there is nothing to take over", file->path,
                 amount_of(file->size).text, formats[kind].name, PLEX_FORMAT_VERSION);
        return;
    }
    add_former_lengths(&line, kind);
    if (former != NULL)
        add(&line, "; a %s of %s has this length: plex upgrade %s takes it over", formats[other].name, former->versions,
            formats[other].name);
    report_length(file, formats[kind].size, line.text);
}

/* What is taken over has all the bytes of the file and else what today's format allows, so today's rules tell whether
 * the former format allowed the file. */
static bool take_over(const struct file *file, const struct former_format *former, uint8_t *today)
{
    const struct format *format = &formats[former->kind];
    struct line why = {0};
    former->take_over(today, file->bytes);
    format->explain(&why, today);
    if (why.length != 0)
        complain("%s: no %s of %s\n      %s", file->path, format->name, former->versions, why.text);
    return why.length == 0;
}

static bool upgrade(const struct file *file, enum kind kind, const char *out)
{
    static uint8_t today[PLEX_STATE_SIZE];
    const struct former_format *former = find_former(kind, file->size);
    struct output output;
    if (former == NULL) {
        report_other_length(file, kind);
        return false;
    }
    if (!take_over(file, former, today))
        return false;
    bool is_whole = complete(&output, out, today, formats[kind].size);
    if (is_whole)
        print("%supgraded%s: %s, a %s of format %d, from %s, of %s\n", colour_on(stdout, GREEN), colour_off(stdout),
              out, formats[kind].name, PLEX_FORMAT_VERSION, file->path, former->versions);
    return put_in_place(&output, is_whole);
}

/* Whether the arguments are the name of a kind and a file; a sentence if not. */
static bool are_kind_and_file(int count, const char **others)
{
    if (count == 0)
        complain("table or state is missing, and a file");
    else if (count > 0 && find_kind(others[0]) == KINDS)
        complain("%s is neither table nor state", others[0]);
    else if (count == 1)
        complain("a file is missing after %s", others[0]);
    return count == 2 && find_kind(others[0]) != KINDS;
}

int upgrade_command(int argc, char **argv)
{
    struct file file = {0};
    const char *others[2], *out = NULL;
    const struct option options[] = {{.name = "--out", .written = &out}, {0}};
    if (!are_kind_and_file(take_words(argc, argv, options, others, 2), others) || !are_apart(options, others + 1, 1) ||
        !is_out_named(out, "what is taken over"))
        return MISUSED;
    enum kind kind = find_kind(others[0]);
    bool done = lend(&file, others[1], formats[kind].size) && upgrade(&file, kind, out);
    free(file.bytes);
    return done ? DONE : TURNED_BACK;
}
