/* `draw`: the line as Graphviz text, all of it or a part. */
#include <string.h>

#include "commands.h"
#include "files.h"
#include "open_table.h"
#include "picture.h"
#include "say.h"
#include "text.h"

static int take_choice(const struct arguments *arguments, struct choice *choice) {
    const char *only = arguments->options[ONLY], *around = arguments->options[AROUND];
    *choice = (struct choice){0, only != NULL};
    if (only != NULL && strcmp(only, "neighbours") != 0)
        return say_wrong_use("draw", only, "--only takes 'neighbours'");
    if (around != NULL && !read_number(around, strlen(around), &choice->around))
        return say_wrong_use("draw", around, "a station number is expected");
    return DONE;
}

int draw_command(const struct arguments *arguments) {
    uint8_t table[STATION_LINE_TABLE_BYTES + 1];
    struct walk walk;
    struct snapshot snapshot;
    struct choice choice;
    int status = take_choice(arguments, &choice);
    if (status == DONE)
        status = open_accepted(arguments->words[0], table, &walk);
    if (status != DONE)
        return status;
    if (arguments->options[AROUND] != NULL) {
        uint32_t number = station_line_may_leave(walk.table, walk.table_len, choice.around).answer;
        if (number != STATION_LINE_DONE) {
            say_refusal_with(name_of(arguments->words[0]), number, "station %s", arguments->options[AROUND]);
            return OTHER;
        }
    }
    take_walk(&snapshot, &walk);
    print_picture(&snapshot, choice);
    return DONE;
}
