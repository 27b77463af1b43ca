/* The events of a file or a pipe, as they come. */
#ifndef EVENTS_H
#define EVENTS_H

#include "command.h"

/* The buffer has room for PLEX_EVENTS_MAX events; the first bytes of an event whose other bytes
 * have not come yet are kept in it. */
struct event_source {
    int descriptor; /* -1 while there is none */
    uint64_t total; /* events of the file; 0 if their number is not known */
    uint64_t bytes_read;
    size_t in_buffer, handed_out; /* bytes */
};

/* Whether the file could be opened and is, if its length is known, as long as so many whole
 * events; a sentence if not. Gives the file its path and its buffer. */
bool open_events(struct event_source *source, struct file *events, const char *path);

/* The events that have come since, at least so many unless the file ends before. Whether all is
 * well; a sentence if not. */
bool next_events(struct event_source *source, struct file *events, size_t fewest);

void close_events(struct event_source *source);

#endif
