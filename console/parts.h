/* A line put together from parts: a colon before the first, commas between them. */
#ifndef PARTS_H
#define PARTS_H

#include <stddef.h>
#include <stdio.h>

#include "station_line_layout.h"

struct parts {
    FILE *out;
    size_t count;
};

/* The separator, for a part that is printed by the caller. */
void next_part(struct parts *parts);

/* A message as in the listing: `i7`, `l` or `r`. */
void put_message(struct parts *parts, struct station_line_message message);

/* The messages of a bag, each with its copies: `i7, 3 l`. */
void put_bag(struct parts *parts, const struct station_line_block *station);

#endif
