/* `run`: a step list over a table, the listing, and the new table in its file. */
#include <stdio.h>
#include <string.h>

#include "commands.h"
#include "files.h"
#include "listing.h"
#include "save.h"
#include "say.h"
#include "station_line_layout.h"
#include "trace.h"

/* The files of a run, and what they hold. */
struct input {
    const char *table_path, *steps_path;
    uint8_t table[STATION_LINE_TABLE_BYTES + 1], steps[STATION_LINE_STEPS_BYTES + 1];
    size_t table_len, steps_len;
};

/* 16: the answer first, and then why. */
static int refuse_file(const char *path, struct reason why) {
    print_answer(stdout, (struct station_line_ran){.answer = UNREADABLE});
    say_unreadable(name_of(path), why);
    return TROUBLE;
}

static int read_input(struct input *input) {
    struct reason why;
    if (!read_table(input->table_path, input->table, &input->table_len, &why))
        return refuse_file(input->table_path, why);
    if (!read_steps(input->steps_path, input->steps, &input->steps_len, &why))
        return refuse_file(input->steps_path, why);
    return DONE;
}

/* Document 01, "The numbers": a table is written at 0 and at 10 to 15. */
static bool is_written(uint32_t number) {
    return number == STATION_LINE_DONE || number >= STATION_LINE_MALFORMED;
}

static int say_end(struct station_line_ran ran, const struct input *input) {
    const char *table = name_of(input->table_path), *steps = name_of(input->steps_path);
    if (ran.answer == STATION_LINE_DONE)
        return DONE;
    if (is_written(ran.answer)) {
        struct station_line_step step = station_line_read_step(input->steps + STATION_LINE_STEP_BYTES * ran.done);
        struct step_text text = ran.answer == STATION_LINE_MALFORMED ? malformed_text(step) : step_text(step);
        say_refusal_with(steps, ran.answer, "step %zu: %s", (size_t)ran.done + 1, text.text);
    } else {
        say_refusal(ran.answer < STATION_LINE_LIST_LENGTH ? table : steps, ran.answer);
    }
    return OTHER;
}

/* Where the new table goes, null for nowhere, whether only a run that does every step is to write it, and whether each step is
 * told. */
struct output {
    const char *path;
    bool all_or_nothing, trace;
};

static bool is_saved(struct output output, uint32_t number) {
    return output.path != NULL && is_written(number) && (number == STATION_LINE_DONE || !output.all_or_nothing);
}

/* What was written is walked like any other table. */
static void print_listing(struct station_line_ran ran, const uint8_t *room) {
    struct walk walk;
    print_answer(stdout, ran);
    if (is_written(ran.answer) && walk_begin(&walk, room, STATION_LINE_BLOCK_BYTES * ran.stations) == STATION_LINE_DONE)
        print_walk(stdout, &walk);
}

/* The table is safe in its file before the listing says that the run was done. Where it can't be written there is no listing. */
static int run(const struct input *input, struct output output) {
    uint8_t room[STATION_LINE_TABLE_BYTES];
    struct reason why = {NULL, 0};
    struct station_line_ran ran =
        station_line_run(input->table, input->table_len, input->steps, input->steps_len, room, input->table_len);
    enum saved saved =
        is_saved(output, ran.answer) ? save(output.path, room, STATION_LINE_BLOCK_BYTES * ran.stations, &why) : SAVED;
    if (saved == UNSAVED)
        return tell_saved(output.path, saved, why);
    if (output.trace && is_written(ran.answer))
        print_trace(stdout, input->table, input->table_len, input->steps, input->steps_len);
    print_listing(ran, room);
    int status = say_end(ran, input);
    if (output.path != NULL && is_written(ran.answer) && !is_saved(output, ran.answer))
        say_trouble(output.path, "not written: the run stopped");
    return saved == SAVED ? status : tell_saved(output.path, saved, why);
}

int run_command(const struct arguments *arguments) {
    struct output output = {arguments->options[OUTPUT], arguments->options[ALL_OR_NOTHING] != NULL,
                            arguments->options[TRACE] != NULL};
    struct input input;
    input.table_path = arguments->words[0];
    input.steps_path = arguments->words[1];
    if (strcmp(input.table_path, "-") == 0 && strcmp(input.steps_path, "-") == 0)
        return say_wrong_use("run", "-", "standard input can't be both the table and the step list");
    if (output.path != NULL && strcmp(output.path, "-") == 0)
        return say_wrong_use("run", "-o -", "standard output takes the listing");
    if (output.path == NULL && output.all_or_nothing)
        return say_wrong_use("run", "--all-or-nothing", "goes with -o");
    if (output.path != NULL && is_same_file(input.steps_path, output.path))
        return tell_saved(output.path, UNSAVED, (struct reason){"it is the step list", 0});
    int status = read_input(&input);
    return status == DONE ? run(&input, output) : status;
}
