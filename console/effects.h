/* What a step did, found by comparing the tables before and after it; no rule of the machine is said again here. */
#ifndef EFFECTS_H
#define EFFECTS_H

#include "parts.h"
#include "snapshot.h"

/* The message that the station has received, if any: one of which its bag holds more copies than before. */
bool has_received(const struct station_line_block *before, const struct station_line_block *after,
                  struct station_line_message *message);

/* What became of the neighbours of the step's station, what was sent to whom, and whether the station has gone. */
void put_effects(struct parts *parts, uint32_t station, const struct snapshot *before, const struct snapshot *after);

#endif
