/* What the leave question tells of a station, and a roll call in its record (document 02, T-02 and T-03). */
#ifndef LEAVES_H
#define LEAVES_H

#include "station_line.h"

static const struct station_line_leave absent = {STATION_LINE_ABSENT, STATION_LINE_NO_REASON, 0};
static const struct station_line_leave may_leave = {0, STATION_LINE_MAY_LEAVE, 0};
static const struct station_line_leave own_bag = {0, STATION_LINE_OWN_BAG, 0};

static inline struct station_line_leave held_by(uint32_t holder) {
    return (struct station_line_leave){0, STATION_LINE_HELD_BY, holder};
}

#endif
