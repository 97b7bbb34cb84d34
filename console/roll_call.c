/* `roll-call`: may they leave? The leave question about many stations at once. */
#include <stdio.h>
#include <stdlib.h>
#include <string.h>

#include "commands.h"
#include "files.h"
#include "listing.h"
#include "open_table.h"
#include "say.h"
#include "station_line_layout.h"
#include "text.h"

/* One station more than may be asked about is enough to be refused for it. */
struct questions {
    uint32_t stations[STATION_LINE_MOST_QUESTIONS + 1];
    size_t count;
};

static void add(struct questions *questions, uint32_t station) {
    if (questions->count <= STATION_LINE_MOST_QUESTIONS)
        questions->stations[questions->count++] = station;
}

/* The stations that the words name. Gives the exit status. */
static int take_stations(const struct arguments *arguments, struct questions *questions) {
    for (size_t k = 1; k < arguments->count; k++) {
        const char *word = arguments->words[k];
        uint32_t station;
        if (!read_number(word, strlen(word), &station))
            return say_wrong_use("roll-call", word, "a station number is expected");
        add(questions, station);
    }
    return DONE;
}

static int compare_stations(const void *one, const void *other) {
    uint32_t a = *(const uint32_t *)one, b = *(const uint32_t *)other;
    return (a > b) - (a < b);
}

/* Every station of the table, by rising number; none of a table that isn't accepted. */
static void take_all(const uint8_t *table, size_t len, struct questions *questions) {
    struct walk walk;
    if (walk_begin(&walk, table, len) != STATION_LINE_DONE)
        return;
    for (const uint8_t *bytes = walk_next(&walk); bytes != NULL; bytes = walk_next(&walk)) {
        struct station_line_block block;
        station_line_read_block(bytes, &block);
        add(questions, block.station);
    }
    qsort(questions->stations, questions->count, sizeof questions->stations[0], compare_stations);
}

/* A line for each record: the station, as it was asked about where words name it, and what is told of it. */
static void print_records(const struct arguments *arguments, const struct questions *questions,
                          const struct station_line_leave *records, size_t count) {
    for (size_t k = 0; k < count; k++) {
        if (arguments->count > 1)
            (void)printf("%s ", arguments->words[1 + k]);
        else
            (void)printf("%u ", (unsigned)questions->stations[k]);
        if (records[k].answer == STATION_LINE_ABSENT)
            (void)puts("absent");
        else
            (void)puts(leave_text(records[k].reason, records[k].holder).text);
    }
}

/* There is a record for each question that may be asked, so 9 is never told. */
int roll_call_command(const struct arguments *arguments) {
    uint8_t table[STATION_LINE_TABLE_BYTES + 1];
    struct station_line_leave records[STATION_LINE_MOST_QUESTIONS];
    struct questions questions = {{0}, 0};
    size_t len;
    const char *path = arguments->words[0];
    int status = take_stations(arguments, &questions);
    if (status == DONE)
        status = open_table(path, table, &len);
    if (status != DONE)
        return status;
    if (arguments->count == 1)
        take_all(table, len, &questions);
    struct station_line_filled filled =
        station_line_roll_call(table, len, questions.stations, questions.count, records, STATION_LINE_MOST_QUESTIONS);
    if (filled.answer == STATION_LINE_DONE) {
        print_records(arguments, &questions, records, filled.filled);
        return DONE;
    }
    say_refusal(name_of(path), filled.answer);
    return OTHER;
}
