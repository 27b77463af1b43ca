/* Colour and the progress bar: both only where a person looks on. */
#define _POSIX_C_SOURCE 200809L

#include "command.h"

#include <stdlib.h>
#include <string.h>
#include <sys/stat.h>
#include <time.h>
#include <unistd.h>

enum { BAR_WIDTH = 40 };
static bool is_bar_shown;

static bool is_coloured(FILE *stream)
{
    const char *refused = getenv("NO_COLOR"), *terminal = getenv("TERM");
    return isatty(fileno(stream)) && (refused == NULL || refused[0] == '\0') &&
           (terminal == NULL || strcmp(terminal, "dumb") != 0);
}

const char *colour_on(FILE *stream, enum colour colour)
{
    static const char *const codes[] = {
        [PLAIN] = "", [GREEN] = "\033[32m", [YELLOW] = "\033[33m", [RED] = "\033[31m", [BOLD] = "\033[1m"};
    return is_coloured(stream) ? codes[colour] : "";
}

const char *colour_off(FILE *stream)
{
    return is_coloured(stream) ? "\033[0m" : "";
}

/* Whether the bar is due: a second after it was first asked for, and then no more than some twenty
 * times a second. */
static bool is_due(void)
{
    static double due;
    struct timespec now;
    clock_gettime(CLOCK_MONOTONIC, &now);
    double seconds = (double)now.tv_sec + 1e-9 * (double)now.tv_nsec;
    if (due == 0)
        due = seconds + 1;
    if (seconds < due)
        return false;
    due = seconds + 0.05;
    return true;
}

/* Whether what is printed may come out on the terminal of the bar by way of another program, as
 * through a pipe. */
static bool is_handed_on(void)
{
    struct stat found;
    return fstat(STDOUT_FILENO, &found) != 0 || !(S_ISREG(found.st_mode) || S_ISCHR(found.st_mode));
}

void show_progress(uint64_t done, uint64_t total)
{
    if (is_quiet || !isatty(STDERR_FILENO) || is_handed_on() || !is_due())
        return;
    if (total == 0 || total < done) {
        fprintf(stderr, "\r%s events", amount_of(done).text);
    } else {
        char bar[BAR_WIDTH + 1];
        size_t full = (size_t)(done * BAR_WIDTH / total);
        memset(bar, '.', BAR_WIDTH);
        memset(bar, '#', full);
        bar[BAR_WIDTH] = '\0';
        fprintf(stderr, "\r[%s] %3u%%  %s of %s events", bar, (unsigned)(done * 100 / total), amount_of(done).text,
                amount_of(total).text);
    }
    fflush(stderr);
    is_bar_shown = true;
}

void clear_progress(void)
{
    if (is_bar_shown)
        fprintf(stderr, "\r\033[K");
    is_bar_shown = false;
}
