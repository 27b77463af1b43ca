/* Files written that take their names only once they are complete, all of them or none. Each
 * function that can fail returns 0, or the number of the error for strerror. */
#ifndef OUTPUTS_H
#define OUTPUTS_H

#include <stdbool.h>
#include <stddef.h>
#include <sys/types.h>

/* A file in the making. What stood under its name stays until it is put in place. A pipe, a device or
 * standard output's file is written as it goes, and what it got cannot be taken back. */
struct output {
    const char *path; /* as it was named */
    int descriptor;
    char *target;    /* the file that the name leads to, through links */
    char *temporary; /* its name until it is put in place; NULL if it is written as it goes */
    bool replaces;   /* whether a file was there, with the rights that it keeps */
    mode_t mode;
    uid_t owner;
    gid_t group;
    char *former; /* the name of what it replaced, for as long as that may have to come back */
};

/* Whether the names lead to the same file, be it there yet or not; "-" is standard input. */
bool lead_to_same_file(const char *one, const char *other);

/* Whether standard output is a regular file and the name leads to it; "-" is standard input. */
bool is_standard_output(const char *path);

/* A file that is there keeps its mode, and its owner and group where the system allows it; a new
 * one has the rights that the process gives new files. */
int begin_output(struct output *output, const char *path);
int write_output(struct output *output, const void *bytes, size_t size);

/* Closes it, complete but not yet in place. */
int close_output(struct output *output);

/* All three: an output of these bytes, complete but not yet in place. */
int complete_output(struct output *output, const char *path, const void *bytes, size_t size);

/* Puts closed outputs in place. On failure every name has the file that it had, and the output at
 * fault is told. */
int place_outputs(struct output *outputs, size_t count, const struct output **at_fault);

/* Removes what was not put in place. An output that was never begun is all zero. */
void drop_output(struct output *output);

#endif
