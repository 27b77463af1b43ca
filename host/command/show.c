/* plex show: an image as statements, block by block. */
#include "command.h"

static void print_record(const uint8_t *image, uint32_t label)
{
    struct line line = {0};
    add_record(&line, image, label);
    print("  %s\n", line.text);
}

/* The number of a block, with its row if there is a table; block 16 is none. */
static void print_heading(const struct file *table, uint32_t block)
{
    struct line line = {0};
    if (block == PLEX_BLOCKS)
        add(&line, "no block");
    else
        add(&line, "block %u", block);
    if (block < PLEX_BLOCKS && table->size == PLEX_TABLE_SIZE) {
        add(&line, ": ");
        add_row(&line, row_at(table->bytes, block));
    }
    print("%s%s%s\n", colour_on(stdout, BOLD), line.text, colour_off(stdout));
}

/* The records whose block is this one; block 16 stands for every number that is no block. */
static void print_block(const struct lent *lent, uint32_t block)
{
    bool begun = false;
    for (uint32_t label = 0; label < records_of(&lent->image); label++) {
        uint32_t own = record_at(lent->image.bytes, label)[PLEX_RECORD_BLOCK];
        if ((own < PLEX_BLOCKS ? own : PLEX_BLOCKS) != block)
            continue;
        if (!begun)
            print_heading(&lent->table, block);
        begun = true;
        print_record(lent->image.bytes, label);
    }
}

/* An image that breaks a rule is listed too, so that the fault can be seen, and so is one with a table that does. The
 * rules of records do not depend on the table, so any table serves to ask the library where none is given. */
static bool show_image(const struct lent *lent, bool has_table)
{
    static const uint8_t any_table[PLEX_TABLE_SIZE];
    uint32_t result = plex_check(lent->image.bytes, lent->image.size, has_table ? lent->table.bytes : any_table,
                                 has_table ? lent->table.size : sizeof any_table);
    if (PLEX_NUMBER(result) != PLEX_BAD_IMAGE_LENGTH)
        for (uint32_t block = 0; block <= PLEX_BLOCKS; block++)
            print_block(lent, block);
    return was_accepted(lent, result);
}

int show_command(int argc, char **argv)
{
    static const struct option no_options[] = {{0}};
    const char *paths[2];
    struct lent lent = {0};
    int count = take_arguments(argc, argv, no_options, paths, 2);
    bool has_table = count > 1;
    if (!are_one_or_other(count, 1, 2))
        return MISUSED;
    bool done = lend(&lent.image, paths[0], LONGEST_IMAGE) &&
                (!has_table || lend(&lent.table, paths[1], PLEX_TABLE_SIZE)) && show_image(&lent, has_table);
    free_lent(&lent);
    return done ? DONE : TURNED_BACK;
}
