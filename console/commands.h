/* The commands of the program: their words and options, what helps with them, and what does them. */
#ifndef COMMANDS_H
#define COMMANDS_H

#include <stdbool.h>
#include <stddef.h>

enum option { OUTPUT, ALL_OR_NOTHING, ALL, DAMAGED, TRACE, ONLY, AROUND, OPTIONS };

#define MOST_WORDS ((size_t)2)

/* The words after the command, and each option's value: null where it isn't given, empty where it takes none. */
struct arguments {
    char **words;
    size_t count;
    const char *options[OPTIONS];
};

struct command {
    const char *name;
    const char *words[MOST_WORDS]; /* as the help calls them; null for none */
    bool more;                     /* whether any number of words may follow these */
    bool options[OPTIONS];         /* those that it takes */
    int (*does)(const struct arguments *);
    const char *usage, *summary, *details;
};

/* All commands; the one behind the last has no name. */
extern const struct command commands[];

/* Null where there is none of that name. */
const struct command *find_command(const char *name);

/* Each gives the exit status; what they print to standard output is flushed and checked by main. */
int check_command(const struct arguments *arguments);
int run_command(const struct arguments *arguments);
int allowed_command(const struct arguments *arguments);
int leave_command(const struct arguments *arguments);
int roll_call_command(const struct arguments *arguments);
int line_command(const struct arguments *arguments);
int view_command(const struct arguments *arguments);
int assemble_command(const struct arguments *arguments);
int dump_command(const struct arguments *arguments);
int draw_command(const struct arguments *arguments);

#endif
