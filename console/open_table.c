#include "open_table.h"

#include "files.h"
#include "say.h"
#include "station_line.h"

int open_table(const char *path, uint8_t *table, size_t *len) {
    struct reason why;
    if (read_table(path, table, len, &why))
        return DONE;
    say_unreadable(name_of(path), why);
    return TROUBLE;
}

int open_accepted(const char *path, uint8_t *table, struct walk *walk) {
    size_t len;
    int status = open_table(path, table, &len);
    if (status != DONE)
        return status;
    uint32_t number = walk_begin(walk, table, len);
    if (number == STATION_LINE_DONE)
        return DONE;
    say_refusal(name_of(path), number);
    return OTHER;
}
