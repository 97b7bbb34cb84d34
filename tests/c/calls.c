#include "calls.h"

#include <string.h>

#include "areas.h"
#include "cases.h"
#include "layout.h"

static const uint8_t nothing[1];
const struct bytes no_bytes = {nothing, 0};

static struct area tables, lists, rooms;

void make_areas(void) {
    tables = area_of_bytes(66 * BLOCK);
    lists = area_of_bytes(4097 * STEP);
    rooms = area_of_room(66 * BLOCK);
}

/* The places that are tried: both, and the null pointer where something is of no bytes. */
static enum place places(int some_empty) {
    return some_empty ? NOWHERE : BEFORE;
}

/* What was written begins the room. */
static void expect_room(size_t room_len, enum place place, struct bytes written) {
    const uint8_t *begin = rooms.own + area_start(&rooms, room_len, place);
    int as_wanted = rest_untouched(&rooms, room_len, place, written.len) && memcmp(begin, written.at, written.len) == 0;
    expect(as_wanted, "every byte of the room, and of what lies beside it");
}

void expect_run(struct bytes table, struct bytes steps, size_t room_len, struct station_line_ran wanted, struct bytes written) {
    enum place last = places(table.len == 0 || steps.len == 0 || room_len == 0);
    for (enum place place = BEHIND; place <= last; place++) {
        const uint8_t *t = lend_bytes(&tables, table.at, table.len, place);
        const uint8_t *s = lend_bytes(&lists, steps.at, steps.len, place);
        uint8_t *room = lend_room(&rooms, room_len, place);
        struct station_line_ran ran = station_line_run(t, table.len, s, steps.len, room, room_len);
        expect(ran.answer == wanted.answer, "the answer of the run");
        expect(ran.done == wanted.done, "the steps done");
        expect(ran.stations == wanted.stations, "the stations now");
        expect(ran.reason == wanted.reason && ran.holder == wanted.holder, "the reason of the run, and the holder");
        expect_room(room_len, place, written);
    }
}

void expect_allowed(struct bytes table, size_t room_len, struct station_line_filled wanted, struct bytes written) {
    for (enum place place = BEHIND; place <= places(table.len == 0 || room_len == 0); place++) {
        const uint8_t *t = lend_bytes(&tables, table.at, table.len, place);
        uint8_t *room = lend_room(&rooms, room_len, place);
        struct station_line_filled filled = station_line_allowed(t, table.len, room, room_len);
        expect(filled.answer == wanted.answer, "the answer of the list");
        expect(filled.filled == wanted.filled, "the steps filled");
        expect_room(room_len, place, written);
    }
}

void expect_roll_call(struct bytes table, struct numbers stations, size_t records, struct station_line_filled wanted,
                      const struct station_line_leave *written) {
    size_t asked_len = stations.count * sizeof *stations.at, room_len = records * sizeof *written;
    struct bytes as_bytes = {(const uint8_t *)written, wanted.filled * sizeof *written};
    for (enum place place = BEHIND; place <= places(table.len == 0 || asked_len == 0 || room_len == 0); place++) {
        const uint8_t *t = lend_bytes(&tables, table.at, table.len, place);
        const void *asked = lend_bytes(&lists, (const uint8_t *)stations.at, asked_len, place);
        void *room = lend_room(&rooms, room_len, place);
        struct station_line_filled filled = station_line_roll_call(t, table.len, asked, stations.count, room, records);
        expect(filled.answer == wanted.answer, "the answer of the roll call");
        expect(filled.filled == wanted.filled, "the records filled");
        expect_room(room_len, place, wanted.filled == 0 ? no_bytes : as_bytes);
    }
    for (size_t k = 0; k < wanted.filled; k++)
        expect_leave(table, stations.at[k], written[k]);
}

void expect_check(struct bytes table, uint32_t answer) {
    for (enum place place = BEHIND; place <= places(table.len == 0); place++)
        expect(station_line_check(lend_bytes(&tables, table.at, table.len, place), table.len) == answer, "the number of the check");
}

void expect_leave(struct bytes table, uint32_t station, struct station_line_leave wanted) {
    for (enum place place = BEHIND; place <= places(table.len == 0); place++) {
        struct station_line_leave leave = station_line_may_leave(lend_bytes(&tables, table.at, table.len, place), table.len, station);
        expect(leave.answer == wanted.answer, "the answer of the leave question");
        expect(leave.reason == wanted.reason && leave.holder == wanted.holder, "the reason of the leave question, and the holder");
    }
}

void expect_line(struct bytes table, uint32_t answer, uint32_t yes) {
    for (enum place place = BEHIND; place <= places(table.len == 0); place++) {
        struct station_line_told told = station_line_in_line(lend_bytes(&tables, table.at, table.len, place), table.len);
        expect(told.answer == answer && told.yes == yes, "the line question");
    }
}

void expect_view(struct bytes table, size_t position, struct station_line_viewed wanted) {
    for (enum place place = BEHIND; place <= places(table.len == 0); place++) {
        struct station_line_viewed seen = station_line_view(lend_bytes(&tables, table.at, table.len, place), table.len, position);
        expect(seen.answer == wanted.answer && seen.has_block == wanted.has_block, "whether the view has a block there");
        expect(seen.offset == wanted.offset && seen.next == wanted.next, "where it lies, and the next position");
    }
}
