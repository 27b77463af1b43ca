/* What the parts of the command plex share. */
#ifndef COMMAND_H
#define COMMAND_H

#include "amounts.h"
#include "files.h"
#include "words.h"

#include <stdbool.h>
#include <stdio.h>

struct output;

/* The status of the command: DONE; a file or what it holds turned back, and no file altered; wrong
 * use; or, of plex waits, done and a ring found. */
enum { DONE = 0, TURNED_BACK = 1, MISUSED = 2, RING_FOUND = 3 };

/* ---- The parts, each given the arguments after its name. */
int check_command(int argc, char **argv);
int show_command(int argc, char **argv);
int link_command(int argc, char **argv);
int run_command(int argc, char **argv);
int state_command(int argc, char **argv);
int waits_command(int argc, char **argv);
int upgrade_command(int argc, char **argv);

/* ---- Arguments. */

/* An option: the place for the name of a file to be read or to be written, or a flag. */
struct option {
    const char *name;
    const char **read, **written;
    const char **replaced; /* the one file read that the file written may be */
    bool *flag;
};

/* Takes the options (a list that ends with a nameless one) and up to limit other arguments; the
 * count of those, or -1 after a sentence about what is wrong. */
int take_words(int argc, char **argv, const struct option *options, const char **others, int limit);

/* Whether no file written is one of the files read, the others and those of options, but for the
 * one that it may replace, or another one written, and nothing is printed into any of them; a sentence
 * if not. */
bool are_apart(const struct option *options, const char **others, int count);

/* As take_words, where the others are names of files to be read, apart from what is written. */
int take_arguments(int argc, char **argv, const struct option *options, const char **others, int limit);

/* Whether the count of other arguments is the one wanted, or one of two; a sentence if not. */
bool are_so_many(int count, int wanted);
bool are_one_or_other(int count, int fewer, int more);

/* Whether a file is named for what is written; a sentence if not. */
bool is_out_named(const char *out, const char *what);

/* ---- Standard output. */

/* Whether nothing is printed there, and no bar is shown. */
extern bool is_quiet;

/* As printf; an error is kept for is_printed. */
void print(const char *format, ...) __attribute__((format(printf, 1, 2)));

/* As "lock 9 guards blocks 1 2". */
void print_guarded(uint32_t lock, const struct groups *groups);

void flush_printed(void);

/* Whether everything printed has reached standard output; a sentence if not. */
bool is_printed(void);

/* ---- Sentences on standard error, each on a line of its own. */
void complain(const char *format, ...) __attribute__((format(printf, 1, 2)));

/* Whether no error came up; a sentence about the file if one did. */
bool is_read(const struct file *file, int failed);
bool is_written(const char *path, int failed);

/* Whether an output of these bytes is complete; a sentence if not. */
bool complete(struct output *output, const char *path, const uint8_t *bytes, size_t size);

/* Whether the output, if it is complete, is put in place, after everything printed is out; a sentence if not. It is
 * dropped in any case. */
bool put_in_place(struct output *output, bool is_complete);

/* The most bytes that an image has. */
enum { LONGEST_IMAGE = PLEX_RECORD_SIZE * PLEX_RECORDS_MAX };

/* Whether the file could be read; a sentence if not. */
bool lend(struct file *file, const char *path, size_t limit);

/* The files lent to a call; those that it was not lent are empty. */
struct lent {
    struct file image, second_image, table, words, state, events;
    uint64_t events_before; /* events of the file that earlier calls carried out */
};

void free_lent(struct lent *lent);

/* How many whole records the image has. */
uint32_t records_of(const struct file *image);

/* The groups of the image and the table; none if the table does not have its length. */
struct groups groups_of(const struct lent *lent);

/* How many bytes a file has, of which limit + 1 were read if it is longer; 0 if it is longer and they are not known. */
uint64_t length_of(const struct file *file, size_t limit);

/* A sentence about a file of the wrong length, of which limit + 1 bytes were read if it is longer. */
void report_length(const struct file *file, size_t limit, const char *expected);

/* Whether the file is as long as a state; a sentence if not. */
bool is_state_long(const struct file *state);

/* Whether the call was accepted; sentences about the cause, the file and the place if not. */
bool was_accepted(const struct lent *lent, uint32_t result);

/* ---- Colour, which is only for a terminal. */
enum colour { PLAIN, GREEN, YELLOW, RED, BOLD };

/* The bytes that switch the colour on, or an empty string. */
const char *colour_on(FILE *stream, enum colour colour);
const char *colour_off(FILE *stream);

/* A bar on standard error if that is a terminal and standard output no pipe, from a second after the
 * first call on; a total of 0 or below what is done is not known. */
void show_progress(uint64_t done, uint64_t total);
void clear_progress(void);

#endif
