/* `assemble`: station lines into a table, step lines into a step list. */
#include <stdlib.h>
#include <string.h>

#include "commands.h"
#include "files.h"
#include "save.h"
#include "say.h"
#include "station_line.h"
#include "station_text.h"

/* The stations in the order given, each with its line. */
struct stations {
    size_t count;
    struct station_line_block at[STATION_LINE_MOST_STATIONS];
    struct line lines[STATION_LINE_MOST_STATIONS];
};

/* A refusal with the line and column where it shows. */
static int refuse_at(uint32_t number, const struct line *line, size_t column) {
    say_refusal_at(line->name, line->number, column, number);
    return OTHER;
}

/* The first column of the words of a line. */
static size_t first_column(struct line line) {
    struct word word;
    (void)next_word(&line, &word);
    return word.column;
}

static int read_stations(struct text text, struct stations *stations) {
    struct line line;
    for (stations->count = 0; next_line(&text, &line); stations->count++) {
        if (stations->count == STATION_LINE_MOST_STATIONS)
            return refuse_at(STATION_LINE_BLOCKS, &line, first_column(line));
        if (!read_station_line(line, &stations->at[stations->count]))
            return OTHER;
        stations->lines[stations->count] = line;
    }
    return DONE;
}

/* The check's number, with the place of the first word that it is about. */
static int refuse_table(const char *name, uint32_t number, const struct stations *stations) {
    for (size_t k = 0; k < stations->count; k++) {
        struct word word;
        if (find_fault(number, stations->lines[k], stations->at, stations->count, k, &word))
            return refuse_at(number, &stations->lines[k], word.column);
    }
    say_refusal(name, number);
    return OTHER;
}

static int put_out(const char *out, const uint8_t *bytes, size_t len) {
    struct reason why;
    enum saved saved = save(out, bytes, len, &why);
    return tell_saved(out, saved, why);
}

/* Blocks and messages stay in the order given; the check is the library's. */
static int assemble_table(struct text text, const char *out) {
    struct stations stations;
    uint8_t table[STATION_LINE_TABLE_BYTES];
    int status = read_stations(text, &stations);
    if (status != DONE)
        return status;
    for (size_t k = 0; k < stations.count; k++)
        station_line_write_block(table + STATION_LINE_BLOCK_BYTES * k, &stations.at[k]);
    size_t len = STATION_LINE_BLOCK_BYTES * stations.count;
    uint32_t number = station_line_check(table, len);
    if (number != STATION_LINE_DONE)
        return refuse_table(text.name, number, &stations);
    return put_out(out, table, len);
}

static int assemble_steps(struct text text, const char *out) {
    uint8_t steps[STATION_LINE_STEPS_BYTES];
    struct line line;
    size_t count;
    for (count = 0; next_line(&text, &line); count++) {
        struct station_line_step step;
        if (count == STATION_LINE_MOST_STEPS)
            return refuse_at(STATION_LINE_LIST_LENGTH, &line, first_column(line));
        if (!read_step_line(line, &step))
            return OTHER;
        station_line_write_step(steps + STATION_LINE_STEP_BYTES * count, step);
    }
    return put_out(out, steps, STATION_LINE_STEP_BYTES * count);
}

int assemble_command(const struct arguments *arguments) {
    const char *what = arguments->words[0], *path = arguments->words[1];
    const char *out = arguments->options[OUTPUT] != NULL ? arguments->options[OUTPUT] : "-";
    bool table = strcmp(what, "table") == 0;
    if (!table && strcmp(what, "steps") != 0)
        return say_wrong_use("assemble", what, "'table' or 'steps' is expected");
    if (strcmp(out, "-") != 0 && is_same_file(path, out))
        return tell_saved(out, UNSAVED, (struct reason){"it is the text", 0});
    char *bytes = malloc(TEXT_BYTES + 1);
    if (bytes == NULL) {
        say_trouble(name_of(path), "no memory is left");
        return TROUBLE;
    }
    struct text text = {name_of(path), bytes, 0, 0, 0};
    struct reason why;
    int status = TROUBLE;
    if (read_text(path, (uint8_t *)bytes, &text.len, &why))
        status = table ? assemble_table(text, out) : assemble_steps(text, out);
    else
        say_unreadable(text.name, why);
    free(bytes);
    return status;
}
