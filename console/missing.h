/* What a refused step was missing: the station, the message, the mark, leave to go, or room. */
#ifndef MISSING_H
#define MISSING_H

#include "parts.h"
#include "snapshot.h"

/* `number` is the library's, 10 to 15, for this step over the stations as they are now. */
void put_missing(struct parts *parts, uint32_t number, struct station_line_step step, const struct snapshot *now);

#endif
