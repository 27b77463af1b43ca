/* Runs a command with standard output and standard error on a terminal of its own, and prints what
 * the terminal got. The status is the command's, or 128 + n if signal n ended it.
 *
 * Use: terminal COMMAND [ARGUMENT..] */
#define _XOPEN_SOURCE 600

#include <errno.h>
#include <fcntl.h>
#include <stdio.h>
#include <stdlib.h>
#include <sys/wait.h>
#include <unistd.h>

static void run_on(const char *terminal, char **command)
{
    int descriptor = open(terminal, O_RDWR | O_NOCTTY);
    if (descriptor < 0 || dup2(descriptor, STDOUT_FILENO) < 0 || dup2(descriptor, STDERR_FILENO) < 0)
        _exit(127);
    close(descriptor);
    execvp(command[0], command);
    _exit(127);
}

/* Until the last writer has closed the terminal, which reads as an input/output error. */
static void copy_all(int master)
{
    char bytes[4096];
    ssize_t size;
    while ((size = read(master, bytes, sizeof bytes)) > 0 || (size < 0 && errno == EINTR))
        if (size > 0)
            fwrite(bytes, 1, (size_t)size, stdout);
}

int main(int argc, char **argv)
{
    int master = posix_openpt(O_RDWR | O_NOCTTY), status = 0;
    if (argc < 2 || master < 0 || grantpt(master) != 0 || unlockpt(master) != 0) {
        fprintf(stderr, "terminal: no command, or no terminal to be had\n");
        return 127;
    }
    pid_t child = fork();
    if (child == 0)
        run_on(ptsname(master), argv + 1);
    copy_all(master);
    if (child < 0 || waitpid(child, &status, 0) != child)
        return 127;
    return WIFSIGNALED(status) ? 128 + WTERMSIG(status) : WEXITSTATUS(status);
}
