/* `view`: where the blocks lie, in stored order, each with its number, its offset and its station line; and then the end. */
#include <stdio.h>

#include "commands.h"
#include "listing.h"
#include "open_table.h"
#include "say.h"
#include "station_line_layout.h"

int view_command(const struct arguments *arguments) {
    uint8_t table[STATION_LINE_TABLE_BYTES + 1];
    struct walk walk;
    int status = open_accepted(arguments->words[0], table, &walk);
    if (status != DONE)
        return status;
    for (const uint8_t *block = walk_next(&walk); block != NULL; block = walk_next(&walk)) {
        struct station_line_block fields;
        station_line_read_block(block, &fields);
        (void)printf("block %zu at %zu: ", walk.position, (size_t)(block - table));
        print_station(stdout, &fields);
    }
    (void)puts("end");
    return DONE;
}
