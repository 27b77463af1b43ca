/* What the header and the library that it is linked with say of their version: the header's text, its number, the
 * library's number, and the formats' version. */
#include <plex.h>
#include <stdio.h>

static void print_number(uint32_t number)
{
    printf("%u.%u.%u\n", number >> 16, number >> 8 & 255, number & 255);
}

int main(void)
{
    printf("%s\n", PLEX_VERSION);
    print_number(PLEX_VERSION_NUMBER);
    print_number(plex_version());
    printf("%d\n", PLEX_FORMAT_VERSION);
    return 0;
}
