/* `check`: "The check returns its number alone." What stands behind the number is said after it. */
#include <stdio.h>

#include "commands.h"
#include "faults.h"
#include "files.h"
#include "say.h"
#include "station_line.h"

/* Whose places are taken: the first of them, and how many there are. */
struct taken {
    const char *name;
    struct place first;
    size_t count;
};

static void take_first(void *context, const struct place *place) {
    struct taken *taken = context;
    if (taken->count++ == 0)
        taken->first = *place;
}

static void say_place(const char *name, const struct place *place, const char *more) {
    say_refusal_with(name, place->number, "block %zu at %zu, station %u: %s%s", place->block + 1,
                     STATION_LINE_BLOCK_BYTES * place->block, (unsigned)place->station, place->words, more);
}

static void say_each(void *context, const struct place *place) {
    const struct taken *taken = context;
    say_place(taken->name, place, "");
}

static void say_length(const char *name, size_t len) {
    say_refusal_with(name, STATION_LINE_TABLE_LENGTH, "%zu bytes, %zu more than whole blocks", len,
                     len % STATION_LINE_BLOCK_BYTES);
}

/* The first place of the number, and how many more there are. */
static void say_first(const char *name, uint32_t number, const uint8_t *table, size_t len) {
    struct taken taken = {.name = name};
    char more[48] = "";
    find_places(table, len, number, take_first, &taken);
    if (taken.count > 1)
        (void)snprintf(more, sizeof more, "; %zu more, see --all", taken.count - 1);
    if (taken.count > 0)
        say_place(name, &taken.first, more);
    else if (number == STATION_LINE_TABLE_LENGTH)
        say_length(name, len);
    else
        say_refusal(name, number);
}

/* Every place of every number. */
static void say_all(const char *name, uint32_t number, const uint8_t *table, size_t len) {
    struct taken taken = {.name = name};
    if (number == STATION_LINE_TABLE_LENGTH)
        say_length(name, len);
    for (uint32_t each = FIRST_FAULT; each <= LAST_FAULT; each++)
        find_places(table, len, each, say_each, &taken);
}

int check_command(const struct arguments *arguments) {
    uint8_t table[STATION_LINE_TABLE_BYTES + 1];
    size_t len;
    struct reason why;
    const char *path = arguments->words[0];
    bool read = read_table(path, table, &len, &why);
    uint32_t number = read ? station_line_check(table, len) : UNREADABLE;
    (void)printf("%u\n", (unsigned)number);
    if (!read) {
        say_unreadable(name_of(path), why);
        return TROUBLE;
    }
    if (number == STATION_LINE_DONE)
        return DONE;
    (arguments->options[ALL] != NULL ? say_all : say_first)(name_of(path), number, table, len);
    return OTHER;
}
