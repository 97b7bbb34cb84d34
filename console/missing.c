#include "missing.h"

#include "effects.h"

static void put_held(struct parts *parts, const struct station_line_block *own) {
    next_part(parts);
    if (station_line_bag_size(own) == 0) {
        (void)fprintf(parts->out, "the bag of %u is empty", (unsigned)own->station);
        return;
    }
    (void)fprintf(parts->out, "the bag of %u holds ", (unsigned)own->station);
    put_bag(parts, own);
}

/* NIDEC: "p's bag is empty and no other station has p as a neighbour or as an introduction in its bag" (document 01). */
static void put_holders(struct parts *parts, const struct station_line_block *own, const struct snapshot *now) {
    const struct station_line_message introduction = {STATION_LINE_INTRODUCTION, 0, own->station};
    if (station_line_bag_size(own) > 0)
        put_held(parts, own);
    for (size_t k = 0; k < now->count; k++) {
        const struct station_line_block *other = &now->stations[k];
        if (other->station == own->station)
            continue;
        if (other->left == own->station || other->right == own->station) {
            next_part(parts);
            (void)fprintf(parts->out, "%u has it as %s", (unsigned)other->station,
                          other->left == own->station ? "left" : "right");
        }
        if (copies(other, introduction) > 0) {
            next_part(parts);
            (void)fprintf(parts->out, "%u has i%u in its bag", (unsigned)other->station, (unsigned)own->station);
        }
    }
}

/* The table with every bag but the station's own emptied: what the step sends there, it would send, since a station's part in a
 * step depends on its own fields and bag, and NIDEC, which an exit has passed by then, holds all the more. */
static size_t empty_bags(uint8_t *table, const struct snapshot *now, uint32_t station) {
    for (size_t k = 0; k < now->count; k++) {
        struct station_line_block block = now->stations[k];
        if (block.station != station)
            block.count = 0;
        station_line_write_block(table + STATION_LINE_BLOCK_BYTES * k, &block);
    }
    return STATION_LINE_BLOCK_BYTES * now->count;
}

/* Who would have to receive and can't. */
static void put_full(struct parts *parts, struct station_line_step step, const struct snapshot *now) {
    uint8_t table[STATION_LINE_TABLE_BYTES], room[STATION_LINE_TABLE_BYTES], bytes[STATION_LINE_STEP_BYTES];
    size_t len = empty_bags(table, now, step.station);
    struct snapshot emptied, after;
    take_snapshot(&emptied, table, now->count);
    station_line_write_step(bytes, step);
    take_snapshot(&after, room, station_line_run(table, len, bytes, sizeof bytes, room, len).stations);
    for (size_t k = 0; k < after.count; k++) {
        uint32_t station = after.stations[k].station;
        const struct station_line_block *receiver = find_station(now, station), *before = find_station(&emptied, station);
        struct station_line_message message;
        if (receiver == NULL || before == NULL || station_line_bag_size(receiver) < STATION_LINE_MOST_MESSAGES ||
            !has_received(before, &after.stations[k], &message))
            continue;
        next_part(parts);
        (void)fprintf(parts->out, "the bag of %u is full and must receive ", (unsigned)station);
        put_message(parts, message);
    }
}

void put_missing(struct parts *parts, uint32_t number, struct station_line_step step, const struct snapshot *now) {
    const struct station_line_block *own = find_station(now, step.station);
    if (number == STATION_LINE_ABSENT) {
        next_part(parts);
        (void)fprintf(parts->out, "%u has no block", (unsigned)step.station);
    } else if (number == STATION_LINE_NOT_IN_BAG && own != NULL) {
        put_held(parts, own);
    } else if (number == STATION_LINE_STAYING) {
        next_part(parts);
        (void)fprintf(parts->out, "%u has no leaving mark", (unsigned)step.station);
    } else if (number == STATION_LINE_HELD && own != NULL) {
        put_holders(parts, own, now);
    } else if (number == STATION_LINE_FULL) {
        put_full(parts, step, now);
    }
}
