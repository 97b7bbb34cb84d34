/* The stations of a table taken apart, for commands that look at several of them. The table is accepted. */
#ifndef SNAPSHOT_H
#define SNAPSHOT_H

#include <stdbool.h>

#include "station_line_layout.h"
#include "walk.h"

struct snapshot {
    size_t count;
    struct station_line_block stations[STATION_LINE_MOST_STATIONS];
};

/* From the blocks of a table that a run wrote, or was given, one behind the other. */
void take_snapshot(struct snapshot *snapshot, const uint8_t *table, size_t blocks);

/* From what a walk has left. */
void take_walk(struct snapshot *snapshot, struct walk *walk);

/* The station of that number, or null. */
const struct station_line_block *find_station(const struct snapshot *snapshot, uint32_t number);

/* How many copies of a message a bag holds. */
size_t copies(const struct station_line_block *station, struct station_line_message message);

/* Whether the message in place `k` has no copy in a place before it. */
bool is_first_copy(const struct station_line_block *station, size_t k);

#endif
