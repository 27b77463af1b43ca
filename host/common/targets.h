/* The file that a name leads to. */
#ifndef TARGETS_H
#define TARGETS_H

/* The name without links, be the file there yet or not: the last link may lead to nothing. Free
 * with free; NULL, with errno set, if a folder on the way is not there. */
char *resolve_target(const char *path);

/* A new name in the folder of the file; NULL, with errno set, if there is no memory. */
char *name_beside(const char *target, unsigned number);

#endif
