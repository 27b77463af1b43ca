/* What goes to standard output, and the error of the first write that failed. */
#include "command.h"

#include <errno.h>
#include <stdarg.h>
#include <stdio.h>
#include <string.h>

bool is_quiet;
static int print_error;

static void note_error(bool has_failed)
{
    if (has_failed && print_error == 0)
        print_error = errno;
}

void print(const char *format, ...)
{
    va_list arguments;
    if (is_quiet)
        return;
    va_start(arguments, format);
    note_error(vprintf(format, arguments) < 0);
    va_end(arguments);
}

void print_guarded(uint32_t lock, const struct groups *groups)
{
    struct line line = {0};
    add_blocks(&line, groups->blocks[lock]);
    print("lock %u guards %s\n", lock, line.text);
}

void flush_printed(void)
{
    note_error(fflush(stdout) != 0);
}

bool is_printed(void)
{
    static bool is_said;
    flush_printed();
    if (print_error != 0 && !is_said)
        complain("standard output cannot be written: %s", strerror(print_error));
    is_said = print_error != 0;
    return print_error == 0;
}
