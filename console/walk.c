#include "walk.h"

#include "station_line.h"

uint32_t walk_begin(struct walk *walk, const uint8_t *table, size_t table_len) {
    *walk = (struct walk){table, table_len, 0};
    return station_line_view(table, table_len, 0).answer;
}

const uint8_t *walk_next(struct walk *walk) {
    struct station_line_viewed viewed = station_line_view(walk->table, walk->table_len, walk->position);
    walk->position = viewed.next;
    return viewed.has_block != 0 ? walk->table + viewed.offset : NULL;
}
