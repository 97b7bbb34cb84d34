/* A table read from a file, for the commands that need one, into a room of STATION_LINE_TABLE_BYTES + 1: what refuses it is said,
 * and the exit status given. */
#ifndef OPEN_TABLE_H
#define OPEN_TABLE_H

#include "walk.h"

/* Any bytes. */
int open_table(const char *path, uint8_t *table, size_t *len);

/* An accepted table, with a walk over it begun. */
int open_accepted(const char *path, uint8_t *table, struct walk *walk);

#endif
