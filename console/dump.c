/* `dump`: a table or a step list back into the lines that `assemble` takes. */
#include <stdio.h>
#include <string.h>

#include "commands.h"
#include "damaged.h"
#include "files.h"
#include "listing.h"
#include "open_table.h"
#include "say.h"
#include "station_line_layout.h"

static int dump_table(const char *path) {
    uint8_t table[STATION_LINE_TABLE_BYTES + 1];
    struct walk walk;
    int status = open_accepted(path, table, &walk);
    if (status == DONE)
        print_walk(stdout, &walk);
    return status;
}

/* The library says whether a step is malformed: over the empty table it answers 10, or 11 since no station is present. */
static bool malformed(const uint8_t *step) {
    return station_line_run(NULL, 0, step, STATION_LINE_STEP_BYTES, NULL, 0).answer == STATION_LINE_MALFORMED;
}

/* Stops at the first malformed step, as a run does. */
static int dump_steps(const char *path) {
    uint8_t steps[STATION_LINE_STEPS_BYTES + 1];
    size_t len;
    struct reason why;
    if (!read_steps(path, steps, &len, &why)) {
        say_unreadable(name_of(path), why);
        return TROUBLE;
    }
    if (len % STATION_LINE_STEP_BYTES != 0) {
        say_refusal(name_of(path), STATION_LINE_LIST_LENGTH);
        return OTHER;
    }
    for (size_t at = 0; at < len; at += STATION_LINE_STEP_BYTES) {
        struct station_line_step step = station_line_read_step(steps + at);
        if (malformed(steps + at)) {
            say_refusal_with(name_of(path), STATION_LINE_MALFORMED, "step %zu: %s", at / STATION_LINE_STEP_BYTES + 1,
                             malformed_text(step).text);
            return OTHER;
        }
        (void)puts(step_text(step).text);
    }
    return DONE;
}

int dump_command(const struct arguments *arguments) {
    const char *what = arguments->words[0], *path = arguments->words[1];
    bool table = strcmp(what, "table") == 0, damaged = arguments->options[DAMAGED] != NULL;
    if (!table && strcmp(what, "steps") != 0)
        return say_wrong_use("dump", what, "'table' or 'steps' is expected");
    if (!table && damaged)
        return say_wrong_use("dump", "--damaged", "goes with 'table'");
    return !table ? dump_steps(path) : damaged ? dump_damaged(path) : dump_table(path);
}
