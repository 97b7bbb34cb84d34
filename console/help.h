/* What the program prints when it is asked for help. */
#ifndef HELP_H
#define HELP_H

#include "commands.h"

/* Of one command, or of the whole program where it is null. */
void print_help(const struct command *command);

#endif
