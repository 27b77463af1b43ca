/* Whole files read and written. Each function returns 0, or the number of the error for
 * strerror. */
#ifndef FILES_H
#define FILES_H

#include <stdbool.h>
#include <stddef.h>
#include <stdint.h>

struct file {
    const char *path; /* as messages name it */
    uint8_t *bytes;   /* never NULL once read; free with free */
    size_t size;
    uint64_t whole; /* bytes that a regular file has; 0 if their number is not known */
};

/* Whether a name stands for standard input, which is "-". */
bool is_standard_input(const char *path);

/* A name as messages have it. */
const char *name_in_messages(const char *path);

/* Opens a file for reading, and names it; "-" is standard input. */
int open_file(int *descriptor, struct file *file, const char *path);

/* How many bytes of a regular file are still to be read; 0 if that is not known. */
uint64_t bytes_left(int descriptor);

/* Reads until so many bytes are there or the file ends; a pipe may be slow. */
int read_bytes(int descriptor, uint8_t *bytes, size_t wanted, size_t *got);

/* Reads a file of at most limit bytes; of a longer one the first limit + 1 bytes. */
int read_file(struct file *file, const char *path, size_t limit);

int write_file(const char *path, const uint8_t *bytes, size_t size);

#endif
