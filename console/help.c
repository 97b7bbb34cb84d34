#include "help.h"

#include <stdio.h>

static const char ending[] = "\n"
                             "A file named '-' is standard input, or standard output for OUT. After '--' every\n"
                             "argument is a name. Exit status: 0 done, accepted or yes; 1 any other answer, no\n"
                             "among them, with its number and words on standard error; 2 wrong use or trouble\n"
                             "with a file (16).\n";

static void print_general_help(void) {
    (void)fputs("usage: station-line COMMAND ...\n\n", stdout);
    for (const struct command *command = commands; command->name != NULL; command++)
        (void)printf("  %-35s %s\n", command->usage, command->summary);
    (void)printf("  %-35s %s\n", "help COMMAND, COMMAND --help", "more of one command");
    (void)printf("  %-35s %s\n", "-h, --help, -V, --version", "this text, the version");
    (void)fputs(ending, stdout);
}

void print_help(const struct command *command) {
    if (command == NULL)
        print_general_help();
    else
        (void)printf("usage: station-line %s\n\n%s%s", command->usage, command->details, ending);
}
