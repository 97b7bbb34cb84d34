#include "options.h"

#include <string.h>

#include "say.h"

/* How an option is written: `-o FILE`, `-oFILE`, `--output FILE` or `--output=FILE`; and what is said where its value is missing,
 * null for an option that takes none. */
static const struct form {
    const char *brief, *name, *value;
} forms[OPTIONS] = {
    [OUTPUT] = {"-o", "--output", "a file's name is missing"},
    [ALL_OR_NOTHING] = {NULL, "--all-or-nothing", NULL},
    [ALL] = {NULL, "--all", NULL},
    [DAMAGED] = {NULL, "--damaged", NULL},
    [TRACE] = {NULL, "--trace", NULL},
    [ONLY] = {NULL, "--only", "'neighbours' is missing"},
    [AROUND] = {NULL, "--around", "a station number is missing"},
};

static bool begins(const char *word, const char *start) {
    return strncmp(word, start, strlen(start)) == 0;
}

/* Whether the argument is this option; a value that stands in the same argument is set. */
static bool is_option(const char *word, const struct form *form, const char **value) {
    size_t len = strlen(form->name);
    *value = NULL;
    if (strcmp(word, form->name) == 0 || (form->brief != NULL && strcmp(word, form->brief) == 0))
        return true;
    if (begins(word, form->name) && word[len] == '=')
        *value = word + len + 1;
    else if (form->brief != NULL && begins(word, form->brief))
        *value = word + strlen(form->brief);
    return *value != NULL;
}

/* The option that the argument is; OPTIONS where it is none of the command's. */
static size_t find_option(const struct command *command, const char *word, const char **value) {
    size_t k = 0;
    while (k < OPTIONS && !(command->options[k] && is_option(word, &forms[k], value)))
        k++;
    return k;
}

/* Takes the option at `argv[0]`, with its value. Gives the number of arguments taken; 0 where they are wrong, which is said. */
static int take_option(const struct command *command, int argc, char **argv, struct arguments *arguments) {
    const char *value, *wrong = NULL;
    size_t k = find_option(command, argv[0], &value);
    bool takes = k < OPTIONS && forms[k].value != NULL, apart = false;
    if (takes && value == NULL) {
        apart = true;
        value = argc > 1 ? argv[1] : "";
    }
    if (k == OPTIONS)
        wrong = "no such option of this command";
    else if (arguments->options[k] != NULL)
        wrong = "given twice";
    else if (value != NULL && !takes)
        wrong = "takes no value";
    else if (takes && (value == NULL || value[0] == '\0'))
        wrong = forms[k].value;
    if (wrong != NULL) {
        (void)say_wrong_use(command->name, argv[0], "%s", wrong);
        return 0;
    }
    arguments->options[k] = value != NULL ? value : "";
    return apart ? 2 : 1;
}

/* Whether the command has a word that is not given yet. */
static bool is_wanting(const struct command *command, const struct arguments *arguments) {
    return arguments->count < MOST_WORDS && command->words[arguments->count] != NULL;
}

static bool take_word(const struct command *command, char *word, struct arguments *arguments) {
    if (!is_wanting(command, arguments) && !command->more) {
        (void)say_wrong_use(command->name, word, "one word too many");
        return false;
    }
    arguments->words[arguments->count++] = word;
    return true;
}

bool take_arguments(const struct command *command, int argc, char **argv, struct arguments *arguments) {
    bool options = true;
    /* The words are put at the beginning of the arguments: a word comes to stand where it was, or earlier. */
    *arguments = (struct arguments){.words = argv};
    for (int k = 0; k < argc;) {
        bool option = options && argv[k][0] == '-' && argv[k][1] != '\0';
        int taken = 1;
        if (option && strcmp(argv[k], "--") == 0)
            options = false;
        else if (option)
            taken = take_option(command, argc - k, argv + k, arguments);
        else
            taken = take_word(command, argv[k], arguments) ? 1 : 0;
        if (taken == 0)
            return false;
        k += taken;
    }
    if (!is_wanting(command, arguments))
        return true;
    (void)say_wrong_use(command->name, command->name, "%s is missing", command->words[arguments->count]);
    return false;
}

bool is_asked(int argc, char **argv, const char *brief, const char *name) {
    for (int k = 0; k < argc && strcmp(argv[k], "--") != 0; k++)
        if (strcmp(argv[k], brief) == 0 || strcmp(argv[k], name) == 0)
            return true;
    return false;
}
