/* In place of plex_version, under the name that the compiler is told, for a command whose library is of another
 * version: its patch is one higher. */
#include "plex.h"

uint32_t plex_version(void)
{
    return PLEX_VERSION_NUMBER + 1;
}
