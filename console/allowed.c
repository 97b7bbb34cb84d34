/* `allowed`: every step that may happen next, in lines that `assemble steps` takes and as a step list in its file. */
#include <stdio.h>
#include <string.h>

#include "commands.h"
#include "files.h"
#include "listing.h"
#include "open_table.h"
#include "save.h"
#include "say.h"
#include "station_line_layout.h"

static void print_steps(const uint8_t *steps, size_t count) {
    for (size_t k = 0; k < count; k++)
        (void)puts(step_text(station_line_read_step(steps + STATION_LINE_STEP_BYTES * k)).text);
}

/* The list is safe in its file before it is printed. Where it can't be written nothing is printed. */
static int put_list(const uint8_t *steps, size_t count, const char *out) {
    struct reason why = {NULL, 0};
    enum saved saved = out != NULL ? save(out, steps, STATION_LINE_STEP_BYTES * count, &why) : SAVED;
    if (saved != UNSAVED)
        print_steps(steps, count);
    return saved == SAVED ? DONE : tell_saved(out, saved, why);
}

/* The room is as long as the longest list, so 9 is never told. */
int allowed_command(const struct arguments *arguments) {
    uint8_t table[STATION_LINE_TABLE_BYTES + 1], steps[STATION_LINE_ALLOWED_BYTES];
    size_t len;
    const char *path = arguments->words[0], *out = arguments->options[OUTPUT];
    if (out != NULL && strcmp(out, "-") == 0)
        return say_wrong_use("allowed", "-o -", "standard output takes the steps");
    if (out != NULL && is_same_file(path, out))
        return tell_saved(out, UNSAVED, (struct reason){"it is the table", 0});
    int status = open_table(path, table, &len);
    if (status != DONE)
        return status;
    struct station_line_filled filled = station_line_allowed(table, len, steps, sizeof steps);
    if (filled.answer == STATION_LINE_DONE)
        return put_list(steps, filled.filled, out);
    say_refusal(name_of(path), filled.answer);
    return OTHER;
}
