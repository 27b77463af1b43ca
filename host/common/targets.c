#define _XOPEN_SOURCE 700

#include "targets.h"

#include <errno.h>
#include <limits.h>
#include <stdio.h>
#include <stdlib.h>
#include <string.h>
#include <unistd.h>

enum { MOST_LINKS = 40 };

/* The length of the folder's part of a name, with its last slash. */
static size_t folder_length(const char *path)
{
    const char *slash = strrchr(path, '/');
    return slash == NULL ? 0 : (size_t)(slash - path) + 1;
}

/* The first bytes of one text, then the other. */
static char *joined(const char *first, size_t length, const char *second)
{
    size_t size = length + strlen(second) + 1;
    char *text = malloc(size);
    if (text != NULL)
        snprintf(text, size, "%.*s%s", (int)length, first, second);
    return text;
}

/* The name of a file that is no link, its folder resolved. */
static char *in_resolved_folder(const char *path)
{
    size_t length = folder_length(path);
    if (path[length] == '\0') {
        errno = EISDIR;
        return NULL;
    }
    char *folder = joined(path, length, "."), *resolved = NULL, *target = NULL;
    if (folder != NULL && (resolved = realpath(folder, NULL)) != NULL) {
        char *with_slash = joined(resolved, strlen(resolved), "/");
        if (with_slash != NULL)
            target = joined(with_slash, strlen(with_slash), path + length);
        free(with_slash);
    }
    free(resolved);
    free(folder);
    return target;
}

char *resolve_target(const char *path)
{
    char link[PATH_MAX], *name = joined(path, strlen(path), "");
    for (int links = 0; name != NULL && links < MOST_LINKS; links++) {
        ssize_t length = readlink(name, link, sizeof link - 1);
        if (length < 0) {
            char *target = in_resolved_folder(name);
            free(name);
            return target;
        }
        link[length] = '\0';
        char *next = joined(name, link[0] == '/' ? 0 : folder_length(name), link);
        free(name);
        name = next;
    }
    if (name != NULL) {
        free(name);
        errno = ELOOP;
    }
    return NULL;
}

char *name_beside(const char *target, unsigned number)
{
    char name[64];
    snprintf(name, sizeof name, ".plex.%ld.%u", (long)getpid(), number);
    return joined(target, folder_length(target), name);
}
