/* plex check: the image check on files. */
#include "command.h"

/* The image, and its groups of blocks that have one lock. */
static void print_accepted(const struct lent *lent)
{
    uint32_t records = records_of(&lent->image);
    uint32_t blocks = count_bits(named_blocks(lent->image.bytes, records));
    struct groups groups = groups_of(lent);
    print("%saccepted%s: %s, %u %s in %u %s, with %s\n", colour_on(stdout, GREEN), colour_off(stdout), lent->image.path,
          records, records == 1 ? "record" : "records", blocks, blocks == 1 ? "block" : "blocks", lent->table.path);
    for (uint32_t lock = 0; lock < PLEX_LOCKS; lock++)
        if (count_bits(groups.blocks[lock]) > 1)
            print_guarded(lock, &groups);
}

int check_command(int argc, char **argv)
{
    static const struct option no_options[] = {{0}};
    const char *paths[2];
    struct lent lent = {0};
    if (!are_so_many(take_arguments(argc, argv, no_options, paths, 2), 2))
        return MISUSED;
    bool accepted =
        lend(&lent.image, paths[0], LONGEST_IMAGE) && lend(&lent.table, paths[1], PLEX_TABLE_SIZE) &&
        was_accepted(&lent, plex_check(lent.image.bytes, lent.image.size, lent.table.bytes, lent.table.size));
    if (accepted)
        print_accepted(&lent);
    free_lent(&lent);
    return accepted ? DONE : TURNED_BACK;
}
