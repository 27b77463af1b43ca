#define _POSIX_C_SOURCE 200809L

#include "files.h"
#include "outputs.h"

#include <errno.h>
#include <fcntl.h>
#include <stdlib.h>
#include <string.h>
#include <sys/stat.h>
#include <unistd.h>

bool is_standard_input(const char *path)
{
    return strcmp(path, "-") == 0;
}

const char *name_in_messages(const char *path)
{
    return is_standard_input(path) ? "standard input" : path;
}

int open_file(int *descriptor, struct file *file, const char *path)
{
    file->path = name_in_messages(path);
    *descriptor = is_standard_input(path) ? dup(STDIN_FILENO) : open(path, O_RDONLY | O_CLOEXEC | O_NOCTTY);
    return *descriptor < 0 ? errno : 0;
}

uint64_t bytes_left(int descriptor)
{
    struct stat found;
    off_t place = lseek(descriptor, 0, SEEK_CUR);
    bool is_known = place >= 0 && fstat(descriptor, &found) == 0 && S_ISREG(found.st_mode) && place < found.st_size;
    return is_known ? (uint64_t)(found.st_size - place) : 0;
}

int read_bytes(int descriptor, uint8_t *bytes, size_t wanted, size_t *got)
{
    for (*got = 0; *got < wanted;) {
        ssize_t size = read(descriptor, bytes + *got, wanted - *got);
        if (size < 0 && errno != EINTR)
            return errno;
        if (size == 0)
            return 0;
        *got += size > 0 ? (size_t)size : 0;
    }
    return 0;
}

int read_file(struct file *file, const char *path, size_t limit)
{
    int descriptor;
    *file = (struct file){.path = path, .bytes = malloc(limit + 1)};
    if (file->bytes == NULL)
        return ENOMEM;
    int failed = open_file(&descriptor, file, path);
    if (failed)
        return failed;
    file->whole = bytes_left(descriptor);
    failed = read_bytes(descriptor, file->bytes, limit + 1, &file->size);
    close(descriptor);
    return failed;
}

int write_file(const char *path, const uint8_t *bytes, size_t size)
{
    struct output output;
    const struct output *at_fault;
    int failed = complete_output(&output, path, bytes, size);
    if (!failed)
        failed = place_outputs(&output, 1, &at_fault);
    drop_output(&output);
    return failed;
}
