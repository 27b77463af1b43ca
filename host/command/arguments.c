#include "command.h"
#include "outputs.h"

#include <string.h>

/* The arguments of a part that are not taken yet. */
struct arguments {
    char **next;
    int left;
    bool has_standard_input; /* stands for a file already */
};

static const struct option options_of_all[] = {{.name = "--quiet", .flag = &is_quiet}, {0}};

static const struct option *find_option(const struct option *options, const char *name, size_t length)
{
    while (options->name != NULL && (strncmp(options->name, name, length) != 0 || options->name[length] != '\0'))
        options++;
    return options->name != NULL ? options : NULL;
}

static const char *take_next(struct arguments *arguments)
{
    if (arguments->left == 0)
        return "";
    arguments->left--;
    return *arguments->next++;
}

/* Whether a file of this name can be read. */
static bool is_to_be_read(struct arguments *arguments, const char *name)
{
    if (!is_standard_input(name))
        return true;
    bool is_first = !arguments->has_standard_input;
    if (!is_first)
        complain("- is standard input, and stands for one file alone");
    arguments->has_standard_input = true;
    return is_first;
}

static bool take_value(struct arguments *arguments, const struct option *option, const char *value)
{
    if (value[0] == '\0') {
        complain("%s wants the name of a file after it", option->name);
        return false;
    }
    if (option->read != NULL) {
        *option->read = value;
        return is_to_be_read(arguments, value);
    }
    *option->written = value;
    if (is_standard_input(value))
        complain("%s wants a file to write, and - is standard input", option->name);
    return !is_standard_input(value);
}

/* The name of the file that an option reads or writes; NULL if there is none. */
static const char *file_of(const struct option *option)
{
    const char **file = option->read != NULL ? option->read : option->written;
    return file != NULL ? *file : NULL;
}

/* Whether an option was taken already; a sentence if so. */
static bool is_given(const struct option *option)
{
    bool is_so = option->flag != NULL ? *option->flag : file_of(option) != NULL;
    if (is_so)
        complain("%s is given twice", option->name);
    return is_so;
}

/* An option with its value, which comes after = or as the next argument. */
static bool take_option(struct arguments *arguments, const struct option *options, const char *argument)
{
    size_t length = strcspn(argument, "=");
    bool has_value = argument[length] == '=';
    const struct option *option = find_option(options, argument, length);
    if (option == NULL)
        option = find_option(options_of_all, argument, length);
    if (option == NULL) {
        complain("there is no option %.*s here", (int)length, argument);
        return false;
    }
    if (is_given(option))
        return false;
    if (option->flag == NULL)
        return take_value(arguments, option, has_value ? argument + length + 1 : take_next(arguments));
    if (has_value)
        complain("%s has no value", option->name);
    *option->flag = true;
    return !has_value;
}

/* Whether the output of an option is a file that another option names, or an argument if that is
 * NULL; a sentence if so. */
static bool is_output(const struct option *output, const struct option *option, const char *path)
{
    bool is_other = output->written != NULL && *output->written != NULL && output != option;
    bool is_input = option == NULL || option->read != NULL;
    bool may_be_replaced = option != NULL && is_input && option->read == output->replaced;
    if (!is_other || may_be_replaced || !lead_to_same_file(*output->written, path))
        return false;
    complain("%s %s is the same file as %s%s%s, which is %s", output->name, *output->written,
             option != NULL ? option->name : "", option != NULL ? " " : "", name_in_messages(path),
             is_input ? "read" : "written");
    return true;
}

/* Whether what is printed goes to a file that is read or written; a sentence if so. */
static bool is_printed_to(const char *path, bool is_input)
{
    bool is_so = !is_quiet && is_standard_output(path);
    if (is_so)
        complain("standard output is the same file as %s, which is %s", name_in_messages(path),
                 is_input ? "read" : "written");
    return is_so;
}

/* Whether a file that an option names, or an argument if that is NULL, is no output but its own, and nothing is
 * printed into it. */
static bool is_apart(const struct option *options, const struct option *option, const char *path)
{
    for (const struct option *output = options; output->name != NULL; output++)
        if (is_output(output, option, path))
            return false;
    return !is_printed_to(path, option == NULL || option->read != NULL);
}

bool are_apart(const struct option *options, const char **others, int count)
{
    for (int i = 0; i < count; i++)
        if (!is_apart(options, NULL, others[i]))
            return false;
    for (const struct option *option = options; option->name != NULL; option++)
        if (file_of(option) != NULL && !is_apart(options, option, file_of(option)))
            return false;
    return true;
}

int take_words(int argc, char **argv, const struct option *options, const char **others, int limit)
{
    struct arguments arguments = {.next = argv, .left = argc};
    bool are_options_over = false;
    int count = 0;
    while (arguments.left > 0) {
        const char *argument = take_next(&arguments);
        if (!are_options_over && strcmp(argument, "--") == 0) {
            are_options_over = true;
        } else if (!are_options_over && argument[0] == '-' && argument[1] != '\0') {
            if (!take_option(&arguments, options, argument))
                return -1;
        } else if (count == limit) {
            complain("%s is one argument too many", argument);
            return -1;
        } else if (!is_to_be_read(&arguments, argument)) {
            return -1;
        } else {
            others[count++] = argument;
        }
    }
    return count;
}

int take_arguments(int argc, char **argv, const struct option *options, const char **others, int limit)
{
    int count = take_words(argc, argv, options, others, limit);
    return count >= 0 && are_apart(options, others, count) ? count : -1;
}

bool are_one_or_other(int count, int fewer, int more)
{
    struct line wanted = {0};
    bool are_so = count == fewer || count == more;
    add(&wanted, "%d", fewer);
    if (more != fewer)
        add(&wanted, " or %d", more);
    if (count >= 0 && !are_so)
        complain("there %s %d %s, and %s are wanted%s", count == 1 ? "is" : "are", count, count == 1 ? "file" : "files",
                 wanted.text, count < fewer ? ": some are missing" : "");
    return are_so;
}

bool are_so_many(int count, int wanted)
{
    return are_one_or_other(count, wanted, wanted);
}

bool is_out_named(const char *out, const char *what)
{
    if (out == NULL)
        complain("--out is missing: %s wants a file", what);
    return out != NULL;
}
