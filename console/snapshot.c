#include "snapshot.h"

void take_snapshot(struct snapshot *snapshot, const uint8_t *table, size_t blocks) {
    snapshot->count = blocks < STATION_LINE_MOST_STATIONS ? blocks : STATION_LINE_MOST_STATIONS;
    for (size_t k = 0; k < snapshot->count; k++)
        station_line_read_block(table + STATION_LINE_BLOCK_BYTES * k, &snapshot->stations[k]);
}

void take_walk(struct snapshot *snapshot, struct walk *walk) {
    const uint8_t *block;
    snapshot->count = 0;
    while (snapshot->count < STATION_LINE_MOST_STATIONS && (block = walk_next(walk)) != NULL)
        station_line_read_block(block, &snapshot->stations[snapshot->count++]);
}

const struct station_line_block *find_station(const struct snapshot *snapshot, uint32_t number) {
    for (size_t k = 0; k < snapshot->count; k++)
        if (snapshot->stations[k].station == number)
            return &snapshot->stations[k];
    return NULL;
}

static bool alike(struct station_line_message a, struct station_line_message b) {
    return a.kind == b.kind && a.number == b.number;
}

size_t copies(const struct station_line_block *station, struct station_line_message message) {
    size_t found = 0;
    for (size_t k = 0; k < station_line_bag_size(station); k++)
        found += alike(station->messages[k], message) ? 1 : 0;
    return found;
}

bool is_first_copy(const struct station_line_block *station, size_t k) {
    for (size_t j = 0; j < k; j++)
        if (alike(station->messages[j], station->messages[k]))
            return false;
    return true;
}
