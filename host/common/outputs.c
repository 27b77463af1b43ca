#define _XOPEN_SOURCE 700

#include "outputs.h"
#include "files.h"
#include "targets.h"
#include "unfinished.h"

#include <errno.h>
#include <fcntl.h>
#include <stdio.h>
#include <stdlib.h>
#include <string.h>
#include <sys/stat.h>
#include <unistd.h>

/* The number of the next name that is tried beside a target. */
static unsigned next_name;

static bool are_same_file(const struct stat *one, const struct stat *other)
{
    return one->st_dev == other->st_dev && one->st_ino == other->st_ino;
}

static bool is_found(const char *path, struct stat *found)
{
    return (is_standard_input(path) ? fstat(STDIN_FILENO, found) : stat(path, found)) == 0;
}

bool lead_to_same_file(const char *one, const char *other)
{
    struct stat first, second;
    if (strcmp(one, other) == 0)
        return true;
    if (is_found(one, &first) && is_found(other, &second))
        return are_same_file(&first, &second);
    if (is_standard_input(one) || is_standard_input(other))
        return false;
    char *target = resolve_target(one), *other_target = resolve_target(other);
    bool same = target != NULL && other_target != NULL && strcmp(target, other_target) == 0;
    free(target);
    free(other_target);
    return same;
}

bool is_standard_output(const char *path)
{
    struct stat file, output;
    return fstat(STDOUT_FILENO, &output) == 0 && S_ISREG(output.st_mode) && is_found(path, &file) &&
           are_same_file(&file, &output);
}

static int open_in_place(struct output *output)
{
    free(output->target);
    output->target = NULL;
    output->descriptor = open(output->path, O_WRONLY | O_TRUNC | O_NOCTTY | O_CLOEXEC);
    return output->descriptor < 0 ? errno : 0;
}

/* Standard output's own file is written from where it stands, so that what is in it already stays. */
static int open_standard_output(struct output *output)
{
    output->descriptor = fcntl(STDOUT_FILENO, F_DUPFD_CLOEXEC, 0);
    return output->descriptor < 0 ? errno : 0;
}

static int create_beside(struct output *output, mode_t mode)
{
    char *name;
    while ((name = name_beside(output->target, next_name++)) != NULL) {
        output->descriptor = open(name, O_WRONLY | O_CREAT | O_EXCL | O_CLOEXEC, mode);
        if (output->descriptor >= 0) {
            output->temporary = name;
            note_unfinished(name);
            return 0;
        }
        int failed = errno;
        free(name);
        if (failed != EEXIST)
            return failed;
    }
    return ENOMEM;
}

/* A file that changes its owner or group does not keep rights that act for them. Writing takes such
 * rights away too, so this comes after it. */
static int keep_rights(const struct output *output)
{
    int descriptor = output->descriptor;
    bool same_owner = fchown(descriptor, output->owner, output->group) == 0;
    bool same_group = same_owner || fchown(descriptor, (uid_t)-1, output->group) == 0;
    mode_t kept = same_owner ? 07777 : same_group ? 0777 : 0707;
    return fchmod(descriptor, output->mode & kept) == 0 ? 0 : errno;
}

/* A regular file that no name leads to any more is written in place too. One that may not be
 * written is not replaced. */
static int begin(struct output *output)
{
    struct stat found, at_target;
    bool exists = stat(output->path, &found) == 0;
    if (!exists && errno != ENOENT)
        return errno;
    if (exists && !S_ISREG(found.st_mode))
        return open_in_place(output);
    if (is_standard_output(output->path))
        return open_standard_output(output);
    output->target = resolve_target(output->path);
    if (output->target == NULL)
        return errno;
    if (exists && (stat(output->target, &at_target) != 0 || !are_same_file(&found, &at_target)))
        return open_in_place(output);
    if (exists && faccessat(AT_FDCWD, output->target, W_OK, AT_EACCESS) != 0)
        return errno;
    if (exists) {
        output->replaces = true;
        output->mode = found.st_mode;
        output->owner = found.st_uid;
        output->group = found.st_gid;
    }
    hold_signals();
    int failed = create_beside(output, exists ? 0600 : 0666);
    let_signals_through();
    return failed;
}

int begin_output(struct output *output, const char *path)
{
    *output = (struct output){.path = path, .descriptor = -1};
    int failed = begin(output);
    if (failed)
        drop_output(output);
    return failed;
}

int write_output(struct output *output, const void *bytes, size_t size)
{
    const char *next = bytes;
    while (size > 0) {
        ssize_t written = write(output->descriptor, next, size);
        if (written < 0 && errno != EINTR)
            return errno;
        next += written > 0 ? written : 0;
        size -= written > 0 ? (size_t)written : 0;
    }
    return 0;
}

/* Some file systems say only here that there was no room for what was written. */
int close_output(struct output *output)
{
    int failed = output->replaces ? keep_rights(output) : 0;
    if (output->temporary != NULL && fsync(output->descriptor) != 0 && errno != EINVAL && !failed)
        failed = errno;
    if (close(output->descriptor) != 0 && !failed)
        failed = errno;
    output->descriptor = -1;
    return failed;
}

int complete_output(struct output *output, const char *path, const void *bytes, size_t size)
{
    int failed = begin_output(output, path);
    if (!failed)
        failed = write_output(output, bytes, size);
    return failed ? failed : close_output(output);
}

/* Gives what stands under the target a second name, or another one where that is not possible. */
static int keep_former(struct output *output)
{
    struct stat found;
    if (lstat(output->target, &found) != 0)
        return errno == ENOENT ? 0 : errno;
    if (!S_ISREG(found.st_mode))
        return S_ISDIR(found.st_mode) ? EISDIR : EEXIST;
    do {
        free(output->former);
        output->former = name_beside(output->target, next_name++);
        if (output->former == NULL)
            return ENOMEM;
    } while (lstat(output->former, &found) == 0);
    if (link(output->target, output->former) == 0 || rename(output->target, output->former) == 0)
        return 0;
    int failed = errno;
    free(output->former);
    output->former = NULL;
    return failed;
}

static void forget_temporary(struct output *output)
{
    forget_unfinished(output->temporary);
    free(output->temporary);
    output->temporary = NULL;
}

static int place(struct output *output, bool may_come_back)
{
    int failed = may_come_back ? keep_former(output) : 0;
    if (failed)
        return failed;
    if (rename(output->temporary, output->target) != 0)
        return errno;
    forget_temporary(output);
    return 0;
}

/* Two names of one file are not renamed, so the second is removed by itself. */
static void take_back(struct output *output)
{
    if (output->former != NULL && rename(output->former, output->target) == 0)
        unlink(output->former);
    else if (output->former == NULL && output->target != NULL && output->temporary == NULL)
        unlink(output->target);
    free(output->former);
    output->former = NULL;
}

/* Whether an output waits to be put in place. */
static bool does_any_wait(const struct output *outputs, size_t count)
{
    bool any = false;
    for (size_t i = 0; i < count; i++)
        any |= outputs[i].temporary != NULL;
    return any;
}

int place_outputs(struct output *outputs, size_t count, const struct output **at_fault)
{
    int failed = 0;
    size_t placed = 0;
    hold_signals();
    for (; placed < count && !failed; placed++) {
        *at_fault = &outputs[placed];
        if (outputs[placed].temporary != NULL)
            failed = place(&outputs[placed], does_any_wait(&outputs[placed + 1], count - placed - 1));
    }
    for (size_t i = 0; i < placed; i++) {
        if (failed)
            take_back(&outputs[i]);
        else if (outputs[i].former != NULL)
            unlink(outputs[i].former);
    }
    let_signals_through();
    return failed;
}

void drop_output(struct output *output)
{
    if (output->path == NULL)
        return;
    if (output->descriptor >= 0)
        close(output->descriptor);
    if (output->temporary != NULL) {
        unlink(output->temporary);
        forget_temporary(output);
    }
    free(output->former);
    free(output->target);
    *output = (struct output){0};
}
