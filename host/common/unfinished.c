#define _XOPEN_SOURCE 700

#include "unfinished.h"

#include <signal.h>
#include <stdbool.h>
#include <unistd.h>

enum { MOST_UNFINISHED = 4 };
static char *volatile unfinished[MOST_UNFINISHED];
static sigset_t handled_before;

static void replace(const char *old, char *new)
{
    for (int i = 0; i < MOST_UNFINISHED; i++)
        if (unfinished[i] == old) {
            unfinished[i] = new;
            return;
        }
}

void note_unfinished(char *name)
{
    replace(NULL, name);
}

void forget_unfinished(const char *name)
{
    replace(name, NULL);
}

void hold_signals(void)
{
    sigset_t all;
    sigfillset(&all);
    sigprocmask(SIG_BLOCK, &all, &handled_before);
}

void let_signals_through(void)
{
    sigprocmask(SIG_SETMASK, &handled_before, NULL);
}

/* The signal's own effect, which was restored when this was called, follows its return. */
static void remove_and_end(int number)
{
    for (int i = 0; i < MOST_UNFINISHED; i++)
        if (unfinished[i] != NULL)
            unlink(unfinished[i]);
    raise(number);
}

/* Whether the signal ends a program that does not handle it, and can be handled. */
static bool is_ending(int number)
{
    switch (number) {
    case SIGKILL:
    case SIGSTOP:
    case SIGTSTP:
    case SIGTTIN:
    case SIGTTOU:
    case SIGCONT:
    case SIGCHLD:
    case SIGURG:
    case SIGWINCH:
        return false;
    default:
        return true;
    }
}

void remove_unfinished_on_signals(void)
{
    struct sigaction found, removing = {.sa_handler = remove_and_end, .sa_flags = SA_RESETHAND};
    sigfillset(&removing.sa_mask);
    for (int number = 1; number <= SIGRTMAX; number++)
        if (is_ending(number) && sigaction(number, NULL, &found) == 0 && !(found.sa_flags & SA_SIGINFO) &&
            found.sa_handler == SIG_DFL)
            sigaction(number, &removing, NULL);
}
