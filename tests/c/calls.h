/* The seven functions of include/station_line.h, called with what they are handed at every place of the guarded areas. */
#ifndef CALLS_H
#define CALLS_H

#include <stddef.h>
#include <stdint.h>

#include "station_line.h"

/* Some bytes; the pointer is not null, also where there are none. */
struct bytes {
    const uint8_t *at;
    size_t len;
};

extern const struct bytes no_bytes;

/* Some station numbers; the pointer is not null, also where there are none. */
struct numbers {
    const uint32_t *at;
    size_t count;
};

/* Makes the areas, for tables and rooms of up to 66 blocks and lists of up to 4,097 steps; questions lie where lists do, and records where
 * rooms do. */
void make_areas(void);

/* What a run returns, the bytes that it writes, and that it touches no other byte of the room or beside it. */
void expect_run(struct bytes table, struct bytes steps, size_t room_len, struct station_line_ran wanted, struct bytes written);

/* The same of a list of allowed steps: what is written is the list. */
void expect_allowed(struct bytes table, size_t room_len, struct station_line_filled wanted, struct bytes written);

/* The same of a roll call with room for so many records: what is written is a record for each that is filled. Each of them is what the
 * leave question tells of its station alone. */
void expect_roll_call(struct bytes table, struct numbers stations, size_t records, struct station_line_filled wanted,
                      const struct station_line_leave *written);

void expect_check(struct bytes table, uint32_t answer);
void expect_leave(struct bytes table, uint32_t station, struct station_line_leave wanted);
void expect_line(struct bytes table, uint32_t answer, uint32_t yes);
void expect_view(struct bytes table, size_t position, struct station_line_viewed wanted);

#endif
