/* The command plex: the library's calls on files. */
#define _POSIX_C_SOURCE 200809L

#include "command.h"
#include "unfinished.h"

#include <fcntl.h>
#include <string.h>
#include <unistd.h>

static int help_command(int argc, char **argv);

static const struct part {
    const char *name;
    int (*carry_out)(int argc, char **argv);
    const char *use;
    const char *purpose; /* in a line */
    const char *help;
} parts[] = {
    {"check", check_command, "IMAGE TABLE", "checks an image and its block table",
     "Checks an image and its block table, and names the groups of blocks that have one lock. If they\n"
     "are refused, says which record or block is at fault and which rule it seems to break.\n"},
    {"show", show_command, "IMAGE [TABLE]", "lists an image as statements, block by block",
     "Lists an image as statements, block by block: label, entry, statement. r0 is register 0 and\n"
     "w0 shared word 0 of the record's block. DIVIDE r0, w0 := p / q has the quotient in r0 and the\n"
     "remainder in w0. A number that UNPACK or DECIMAL ADD reads is shown by its digits, as packed\n"
     "0042, or as (not packed: 0x12a4) where one is above 9. With the table, each block's heading\n"
     "has its thread, its kind (FD or CMX) and its lock.\n"},
    {"link", link_command, "FIRST SECOND TABLE --out IMAGE", "makes one image of two",
     "Links two images that are meant for one block table: the second is laid behind the first, and\n"
     "its labels become higher by the first's number of records. If they are refused, says which\n"
     "image and record are at fault, or which blocks both have.\n"
     "\n"
     "  --out IMAGE  write the linked image\n"},
    {"run", run_command, "IMAGE TABLE WORDS|--state STATE EVENTS [OPTIONS]", "carries out the events of a file",
     "Carries the events of a file out, from a fresh machine with the initial words or from a\n"
     "state, and prints a line for each event: its place in the file, the event, the statement\n"
     "carried out, the answer and the thread after it. Of PACK, UNPACK and DECIMAL ADD it says what\n"
     "they read and stored, packed numbers by their digits. A summary follows.\n"
     "\n"
     "  --state STATE   begin with this state and not with a fresh machine\n"
     "  --out STATE     write the state left; the file may be that of --state\n"
     "  --answers FILE  write the answers, 2 bytes an event\n"
     "  --summary       print the summary alone; events go 1,024 to a call\n"
     "\n"
     "The event file may have any length, and may be a pipe: what its events say is printed as they\n"
     "come. The files named by --out and --answers are put in place only after every event was\n"
     "carried out and the summary printed, both or none.\n"},
    {"state", state_command, "[IMAGE TABLE] STATE",
     "shows a state; with image and table, tells whether it is well formed",
     "Shows a state: threads with their held signals, locks held, queues, trees with their pending\n"
     "signals, and the shared words that are not 0. With its image and table, says block and statement\n"
     "at the label and the return labels of each running thread, which blocks the locks guard, and\n"
     "whether the state is well formed.\n"},
    {"waits", waits_command, "IMAGE TABLE STATE [--dot] [--svg FILE]",
     "says which thread waits for which, and what opens a ring",
     "Says which thread waits for which lock and thread, and which blocks these locks guard. A ring is\n"
     "said once, with the thread to cut and the one to step then, which opens it; the status is 3.\n"
     "\n"
     "  --dot       print a Graphviz graph of the waits instead\n"
     "  --svg FILE  draw a picture of the waits into a file; without --dot, nothing is printed then\n"},
    {"upgrade", upgrade_command, "table|state FILE --out FILE", "takes over a table or a state of a former format",
     "Makes of a table of format 2 or before, which has 32 bytes, or of a state of format 1, which has\n"
     "7,929 bytes, one of today's format: block b gets lock b, and each thread gets no held signal. A\n"
     "file of any other length is refused, as is one whose bytes the former format did not allow.\n"
     "\n"
     "  --out FILE  write the table or the state; the file must not be the one read\n"},
    {"help", help_command, "[PART]", "says what the parts do, or how a part is used",
     "Says of each part what it does, in a line, or of one part how it is used, as PART --help does.\n"},
};
enum { PARTS = sizeof parts / sizeof parts[0] };

static const char common[] =
    "The file - is standard input. --out=FILE is --out FILE, and so for each option; after -- come\n"
    "files alone. --quiet prints nothing but what goes wrong. Of the blocks that a lock guards, those\n"
    "are named that the image has records in. No file is both read and written, but for a state that\n"
    "plex run goes on with.\n"
    "\n"
    "An image is 84 bytes a record, 1 to 512 records; a block table 48 bytes; initial words 512\n"
    "bytes; a state 9,633 bytes; an event 55 bytes; an answer 2 bytes.\n";

static void print_help(void)
{
    print("Use: plex PART ARGUMENTS; plex help PART says more, plex --version the version.\n\n");
    for (size_t i = 0; i < PARTS; i++)
        print("  plex %s %s\n      %s\n", parts[i].name, parts[i].use, parts[i].purpose);
    print("\n%s\nThe status is 0; 1 if a file cannot be read or written or is refused, and then no "
          "file is\naltered; 2 if the command is used wrongly or its library is of another version; 3 if plex\n"
          "waits finds a ring.\n",
          common);
}

static const struct part *find_part(const char *name)
{
    for (size_t i = 0; i < PARTS; i++)
        if (strcmp(parts[i].name, name) == 0)
            return &parts[i];
    return NULL;
}

static void print_help_of(const struct part *part)
{
    print("Use: plex %s %s\n\n%s\n%s", part->name, part->use, part->help, common);
}

static int help_command(int argc, char **argv)
{
    static const struct option no_options[] = {{0}};
    const char *name;
    int count = take_words(argc, argv, no_options, &name, 1);
    is_quiet = false; /* who asks for help gets it, as by --help */
    const struct part *part = count == 1 ? find_part(name) : NULL;
    if (part != NULL)
        print_help_of(part);
    else if (count == 0)
        print_help();
    else if (count == 1)
        complain("there is no part %s", name);
    return part != NULL || count == 0 ? DONE : MISUSED;
}

static bool is_help(const char *argument)
{
    return strcmp(argument, "--help") == 0 || strcmp(argument, "-h") == 0;
}

static bool is_version(const char *argument)
{
    return strcmp(argument, "--version") == 0;
}

static bool asks_for_help(int argc, char **argv)
{
    for (int i = 0; i < argc && strcmp(argv[i], "--") != 0; i++)
        if (is_help(argv[i]))
            return true;
    return false;
}

static int carry_out(const struct part *part, int argc, char **argv)
{
    if (asks_for_help(argc, argv)) {
        print_help_of(part);
        return DONE;
    }
    int status = part->carry_out(argc, argv);
    if (status == MISUSED)
        fprintf(stderr, "Use: plex %s %s\n", part->name, part->use);
    return status;
}

/* Whether the library that is linked has the version of the header that the command was compiled with. */
static int print_versions(void)
{
    uint32_t library = plex_version();
    print("plex %s, library %u.%u.%u, format %d\n", PLEX_VERSION, library >> 16, library >> 8 & 255, library & 255,
          PLEX_FORMAT_VERSION);
    if (library == PLEX_VERSION_NUMBER)
        return DONE;
    complain("the library is not of the version that the command was compiled for");
    return MISUSED;
}

static int carry_out_all(int argc, char **argv)
{
    const struct part *part = argc < 2 ? NULL : find_part(argv[1]);
    if (part != NULL)
        return carry_out(part, argc - 2, argv + 2);
    if (argc == 2 && is_help(argv[1])) {
        print_help();
        return DONE;
    }
    if (argc == 2 && is_version(argv[1]))
        return print_versions();
    if (argc > 2 && (is_help(argv[1]) || is_version(argv[1])))
        complain("%s is one argument too many", argv[2]);
    else if (argc >= 2)
        complain("there is no part %s", argv[1]);
    fprintf(stderr, "Use: plex check|show|link|run|state|waits|upgrade|help ARGUMENTS; see plex --help\n");
    return MISUSED;
}

/* The next file opened would take the place of a standard stream that is closed. Each of those is
 * opened the wrong way round, so that it still cannot be read or written. */
static bool are_standard_streams_taken(void)
{
    for (int descriptor = STDIN_FILENO; descriptor <= STDERR_FILENO; descriptor++)
        if (fcntl(descriptor, F_GETFD) < 0 &&
            open("/dev/null", descriptor == STDIN_FILENO ? O_WRONLY : O_RDONLY) != descriptor)
            return false;
    return true;
}

int main(int argc, char **argv)
{
    if (!are_standard_streams_taken())
        return TURNED_BACK;
    remove_unfinished_on_signals();
    int status = carry_out_all(argc, argv);
    return is_printed() || status == MISUSED ? status : TURNED_BACK;
}
