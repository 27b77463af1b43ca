/* plex link: two images become one. */
#include "command.h"
#include "outputs.h"

/* A refusal of the one or the other image does not say which: it is that of the first exactly if the
 * check of the first says the same. */
static bool was_linked(const struct lent *lent, uint32_t result)
{
    struct lent at_fault = *lent;
    uint32_t number = PLEX_NUMBER(result);
    if ((number == PLEX_BAD_IMAGE_LENGTH || number == PLEX_BAD_RECORD) &&
        plex_check(lent->image.bytes, lent->image.size, lent->table.bytes, lent->table.size) != result)
        at_fault.image = lent->second_image;
    return was_accepted(&at_fault, result);
}

static void print_linked(const struct lent *lent, const char *out)
{
    uint32_t first = records_of(&lent->image), second = records_of(&lent->second_image);
    print("%slinked%s: %s, %u records, %u of %s and %u of %s; labels of %s are %u higher\n", colour_on(stdout, GREEN),
          colour_off(stdout), out, first + second, first, lent->image.path, second, lent->second_image.path,
          lent->second_image.path, first);
}

/* A file that is too long was read one byte further than the longest image. */
static bool link_images(const struct lent *lent, const char *out)
{
    static uint8_t linked[2 * (LONGEST_IMAGE + 1)];
    size_t size = lent->image.size + lent->second_image.size;
    struct output output;
    if (!was_linked(lent, plex_link(lent->image.bytes, lent->image.size, lent->second_image.bytes,
                                    lent->second_image.size, lent->table.bytes, lent->table.size, linked, size)))
        return false;
    bool is_whole = complete(&output, out, linked, size);
    if (is_whole)
        print_linked(lent, out);
    return put_in_place(&output, is_whole);
}

int link_command(int argc, char **argv)
{
    struct lent lent = {0};
    const char *paths[3], *out = NULL;
    const struct option options[] = {{.name = "--out", .written = &out}, {0}};
    if (!are_so_many(take_arguments(argc, argv, options, paths, 3), 3) || !is_out_named(out, "the linked image"))
        return MISUSED;
    bool done = lend(&lent.image, paths[0], LONGEST_IMAGE) && lend(&lent.second_image, paths[1], LONGEST_IMAGE) &&
                lend(&lent.table, paths[2], PLEX_TABLE_SIZE) && link_images(&lent, out);
    free_lent(&lent);
    return done ? DONE : TURNED_BACK;
}
