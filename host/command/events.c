#define _POSIX_C_SOURCE 200809L

#include "events.h"

#include <errno.h>
#include <inttypes.h>
#include <stdlib.h>
#include <string.h>
#include <unistd.h>

enum { BUFFER_SIZE = PLEX_EVENT_SIZE * PLEX_EVENTS_MAX };

static bool are_whole_events(const struct file *events, uint64_t size)
{
    if (size % PLEX_EVENT_SIZE != 0)
        complain("%s: %s bytes; events are 55 bytes each, and %" PRIu64 " bytes are left over", events->path,
                 amount_of(size).text, size % PLEX_EVENT_SIZE);
    return size % PLEX_EVENT_SIZE == 0;
}

bool open_events(struct event_source *source, struct file *events, const char *path)
{
    *source = (struct event_source){.descriptor = -1};
    events->bytes = malloc(BUFFER_SIZE);
    int failed = open_file(&source->descriptor, events, path);
    if (!is_read(events, events->bytes == NULL ? ENOMEM : failed))
        return false;
    uint64_t left = bytes_left(source->descriptor);
    source->total = left / PLEX_EVENT_SIZE;
    return are_whole_events(events, left);
}

/* Reads once what has come, after what was kept; 0 bytes at the end of the file. */
static bool read_more(struct event_source *source, struct file *events, size_t *size)
{
    ssize_t got;
    do
        got = read(source->descriptor, events->bytes + source->in_buffer, BUFFER_SIZE - source->in_buffer);
    while (got < 0 && errno == EINTR);
    *size = got > 0 ? (size_t)got : 0;
    source->in_buffer += *size;
    source->bytes_read += *size;
    return is_read(events, got < 0 ? errno : 0);
}

bool next_events(struct event_source *source, struct file *events, size_t fewest)
{
    size_t size = 1;
    source->in_buffer -= source->handed_out;
    memmove(events->bytes, events->bytes + source->handed_out, source->in_buffer);
    source->handed_out = 0;
    while (source->in_buffer < PLEX_EVENT_SIZE * fewest && size != 0)
        if (!read_more(source, events, &size))
            return false;
    events->size = source->in_buffer - source->in_buffer % PLEX_EVENT_SIZE;
    source->handed_out = events->size;
    return events->size != 0 || are_whole_events(events, source->bytes_read);
}

void close_events(struct event_source *source)
{
    if (source->descriptor >= 0)
        close(source->descriptor);
}
