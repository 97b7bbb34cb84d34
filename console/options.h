/* The arguments of a command taken apart. */
#ifndef OPTIONS_H
#define OPTIONS_H

#include <stdbool.h>

#include "commands.h"

/* False where they are none of this command's; what is wrong is said. After `--` every argument is a word. The words are kept in argv,
 * whose order changes. */
bool take_arguments(const struct command *command, int argc, char **argv, struct arguments *arguments);

/* Whether an argument before `--` is one of these two. */
bool is_asked(int argc, char **argv, const char *brief, const char *name);

#endif
