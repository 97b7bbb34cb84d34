/* The questions of tests/questions.txt, each alone, and the leave questions about one table in roll calls too. cases.bin: for each case the
 * lengths of table, step list and room, then table and step list. questions.txt: the number of a case, then `leave`, a station, the number,
 * the reason and the holder; or `line`, the number and yes. */
#include <stdio.h>
#include <stdlib.h>

#include "calls.h"
#include "cases.h"
#include "tries.h"

static uint8_t *read_file(const char *path, size_t *len) {
    FILE *file = fopen(path, "rb");
    if (!file || fseek(file, 0, SEEK_END) != 0) {
        perror(path);
        exit(2);
    }
    *len = (size_t)ftell(file);
    rewind(file);
    uint8_t *bytes = malloc(*len + 1);
    if (!bytes || fread(bytes, 1, *len, file) != *len) {
        perror(path);
        exit(2);
    }
    fclose(file);
    return bytes;
}

static struct bytes find_table(const uint8_t *cases, size_t len, unsigned wanted) {
    size_t at = 0;
    for (unsigned k = 1; at + 12 <= len; k++) {
        size_t table = get32(cases + at), steps = get32(cases + at + 4);
        if (k == wanted)
            return (struct bytes){cases + at + 12, table};
        at += 12 + table + steps;
    }
    printf("no case %u\n", wanted);
    exit(2);
}

/* A line of questions.txt; `leave` or `line` says which of the fields it has. */
struct question {
    unsigned number, station, answer, reason, holder, yes;
    int leave;
};

static int read_question(const char *line, struct question *q) {
    *q = (struct question){0};
    q->leave = sscanf(line, "%u leave %u %u %u %u", &q->number, &q->station, &q->answer, &q->reason, &q->holder) == 5;
    return q->leave || sscanf(line, "%u line %u %u", &q->number, &q->answer, &q->yes) == 3;
}

/* Leave questions about one table, in the order of their lines, not yet asked in a roll call. */
static struct {
    struct bytes table;
    struct numbers stations;
    uint32_t numbers[STATION_LINE_MOST_QUESTIONS];
    struct station_line_leave records[STATION_LINE_MOST_QUESTIONS];
} gathered;

/* Asks them. A number of the table itself, which all of them have, is then the whole answer. */
static void call_gathered(void) {
    size_t count = gathered.stations.count;
    uint32_t first = gathered.records[0].answer;
    struct station_line_filled filled = {0, (uint32_t)count};
    if (count == 0)
        return;
    if (1 <= first && first <= STATION_LINE_UNKNOWN)
        filled = (struct station_line_filled){first, 0};
    expect_roll_call(gathered.table, gathered.stations, count, filled, gathered.records);
    gathered.stations.count = 0;
}

static void gather(struct bytes table, const struct question *q) {
    if (gathered.stations.count == STATION_LINE_MOST_QUESTIONS)
        call_gathered();
    size_t k = gathered.stations.count;
    gathered.table = table;
    gathered.numbers[k] = q->station;
    gathered.records[k] = (struct station_line_leave){q->answer, q->reason, q->holder};
    gathered.stations = (struct numbers){gathered.numbers, k + 1};
}

/* One line; the case that it asks about is returned. */
static unsigned ask(const char *line, unsigned before, const uint8_t *cases, size_t len) {
    char what[64];
    struct question q;
    if (!read_question(line, &q)) {
        begin_case(line);
        expect(0, "the line is a question");
        return 0;
    }
    if (q.number != before) {
        call_gathered();
        (void)snprintf(what, sizeof what, "stored questions about the table of case %u", q.number);
        begin_case(what);
    }
    struct bytes table = find_table(cases, len, q.number);
    if (q.leave) {
        expect_leave(table, q.station, (struct station_line_leave){q.answer, q.reason, q.holder});
        gather(table, &q);
    } else {
        expect_line(table, q.answer, q.yes);
    }
    return q.number;
}

void try_stored(const char *cases_path, const char *questions_path) {
    size_t len;
    uint8_t *cases = read_file(cases_path, &len);
    FILE *questions = fopen(questions_path, "r");
    if (!questions) {
        perror(questions_path);
        exit(2);
    }
    char line[128];
    unsigned asked = 0, number = 0;
    for (; fgets(line, sizeof line, questions); asked++)
        number = ask(line, number, cases, len);
    call_gathered();
    begin_case("there are stored questions");
    expect(asked > 0, questions_path);
    fclose(questions);
    free(cases);
}
