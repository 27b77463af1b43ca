/* Makes one call on a buffer that nobody may touch: the program ends by SIGSEGV, inside the call. Or one on good
 * buffers.
 *
 * Use: faulting check|fresh|run|walk|link|good */
#define _DEFAULT_SOURCE

#include "plex.h"

#include <string.h>
#include <sys/mman.h>

/* The images of two guests, of a record each. */
static const uint8_t image[PLEX_RECORD_SIZE] = {PLEX_EXIT}, second[PLEX_RECORD_SIZE] = {PLEX_EXIT, 1};
static const uint8_t table[PLEX_TABLE_SIZE], words[PLEX_WORDS_SIZE];
static uint8_t state[PLEX_STATE_SIZE];
static uint32_t result;

static void lend_check(uint8_t *nowhere)
{
    result = plex_check(nowhere, sizeof image, table, sizeof table);
}

static void lend_fresh(uint8_t *nowhere)
{
    result = plex_fresh(image, sizeof image, table, sizeof table, words, sizeof words, nowhere, sizeof state);
}

static void lend_run(uint8_t *nowhere)
{
    result = plex_run(image, sizeof image, table, sizeof table, nowhere, sizeof state, NULL, 0, NULL, 0);
}

static void lend_walk(uint8_t *nowhere)
{
    result = plex_walk(image, sizeof image, table, sizeof table, state, sizeof state, 0, nowhere, PLEX_MET_SIZE);
}

static void lend_link(uint8_t *nowhere)
{
    result = plex_link(image, sizeof image, second, sizeof second, table, sizeof table, nowhere,
                       sizeof image + sizeof second);
}

static void lend_good(uint8_t *nowhere)
{
    (void)nowhere;
    result = plex_check(image, sizeof image, table, sizeof table);
}

static const struct {
    const char *name;
    void (*call)(uint8_t *nowhere);
} calls[] = {{"check", lend_check}, {"fresh", lend_fresh}, {"run", lend_run},
             {"walk", lend_walk},   {"link", lend_link},   {"good", lend_good}};

int main(int argc, char **argv)
{
    uint8_t *nowhere = mmap(NULL, sizeof state, PROT_NONE, MAP_PRIVATE | MAP_ANONYMOUS, -1, 0);
    if (argc != 2 || nowhere == MAP_FAILED ||
        plex_fresh(image, sizeof image, table, sizeof table, words, sizeof words, state, sizeof state) != 0)
        return 2;
    for (size_t i = 0; i < sizeof calls / sizeof calls[0]; i++)
        if (strcmp(calls[i].name, argv[1]) == 0)
            calls[i].call(nowhere);
    return result != 0;
}
