/* station-line: a console over the station line's library. */
#define _POSIX_C_SOURCE 200809L
#include <errno.h>
#include <signal.h>
#include <stdio.h>
#include <string.h>

#include "commands.h"
#include "descriptors.h"
#include "help.h"
#include "options.h"
#include "say.h"
#include "station_line.h"

/* `help`, `help COMMAND`, `COMMAND --help`; the command is the first argument that is no option. */
static int help(int argc, char **argv) {
    int k = 0;
    while (k < argc && (argv[k][0] == '-' || strcmp(argv[k], "help") == 0))
        k++;
    const struct command *command = k < argc ? find_command(argv[k]) : NULL;
    if (k < argc && command == NULL)
        return say_wrong_use(NULL, argv[k], "no such command");
    print_help(command);
    return DONE;
}

/* The arguments behind the program's own name. */
static int act(int argc, char **argv) {
    if (argc < 1)
        return say_wrong_use(NULL, "COMMAND", "is missing");
    if (is_asked(argc, argv, "-h", "--help") || strcmp(argv[0], "help") == 0)
        return help(argc, argv);
    if (is_asked(argc, argv, "-V", "--version")) {
        (void)printf("station-line %s\n", STATION_LINE_VERSION);
        return DONE;
    }
    const struct command *command = find_command(argv[0]);
    if (command == NULL)
        return say_wrong_use(NULL, argv[0], argv[0][0] == '-' ? "no such option" : "no such command");
    struct arguments arguments;
    return take_arguments(command, argc - 1, argv + 1, &arguments) ? command->does(&arguments) : TROUBLE;
}

int main(int argc, char **argv) {
    hold_standard_places();
    (void)setvbuf(stderr, NULL, _IOLBF, BUFSIZ); /* a line goes out whole, beside those of other programs */
#ifdef SIGXFSZ
    /* A file that may not grow further is then an error of the write, which is told, and not the end of the program. */
    if (signal(SIGXFSZ, SIG_IGN) == SIG_ERR)
        say_trouble("SIGXFSZ", "%s", strerror(errno));
#endif
    int status = act(argc - 1, argv + 1);
    return results_are_out() ? status : TROUBLE;
}
