/* The kinds of files whose layout has changed, and what takes a file of a former format over. */
#ifndef FORMATS_H
#define FORMATS_H

#include "words.h"

enum kind { TABLE, STATE, KINDS };

/* Today's format of each kind. */
struct format {
    const char *name; /* of the kind */
    size_t size;
    const char *length; /* the size in a sentence */
    /* Says what the format does not allow, as far as one file of it tells. */
    void (*explain)(struct line *why, const uint8_t *bytes);
};
extern const struct format formats[KINDS];

struct former_format {
    enum kind kind;
    size_t size;
    const char *versions;                                    /* of the formats: those that had it */
    void (*take_over)(uint8_t *today, const uint8_t *bytes); /* writes every byte of today's */
};

/* The kind of this name, or KINDS. */
enum kind find_kind(const char *name);

/* The former format in which a file of the kind had so many bytes, or NULL. */
const struct former_format *find_former(enum kind kind, uint64_t size);

/* As "a table of format 2 or before is 32 bytes". */
void add_former_lengths(struct line *line, enum kind kind);

#endif
