/* `leave` and `line`: the two questions. */
#include <stdio.h>
#include <string.h>

#include "commands.h"
#include "files.h"
#include "listing.h"
#include "open_table.h"
#include "say.h"
#include "text.h"

/* Whatever is not yes is another answer, so that a script which asks may go on at 0 alone. */
static int answer(const char *text, bool yes) {
    (void)puts(text);
    return yes ? DONE : OTHER;
}

int leave_command(const struct arguments *arguments) {
    uint8_t table[STATION_LINE_TABLE_BYTES + 1];
    size_t len;
    uint32_t station;
    const char *path = arguments->words[0], *number = arguments->words[1];
    if (!read_number(number, strlen(number), &station))
        return say_wrong_use("leave", number, "a station number is expected");
    int status = open_table(path, table, &len);
    if (status != DONE)
        return status;
    struct station_line_leave leave = station_line_may_leave(table, len, station);
    if (leave.answer == STATION_LINE_DONE)
        return answer(leave_text(leave.reason, leave.holder).text, leave.reason == STATION_LINE_MAY_LEAVE);
    if (leave.answer == STATION_LINE_ABSENT)
        say_refusal_with(name_of(path), leave.answer, "station %s", number);
    else
        say_refusal(name_of(path), leave.answer);
    return OTHER;
}

int line_command(const struct arguments *arguments) {
    uint8_t table[STATION_LINE_TABLE_BYTES + 1];
    size_t len;
    const char *path = arguments->words[0];
    int status = open_table(path, table, &len);
    if (status != DONE)
        return status;
    struct station_line_told told = station_line_in_line(table, len);
    if (told.answer == STATION_LINE_DONE)
        return answer(told.yes != 0 ? "yes" : "no", told.yes != 0);
    say_refusal(name_of(path), told.answer);
    return OTHER;
}
