/* Files read whole, `-` being standard input. Where one can't be read or is too long, false with the reason; nothing is said. */
#ifndef FILES_H
#define FILES_H

#include <stdbool.h>
#include <stddef.h>
#include <stdint.h>

#include "reason.h"

/* The longest text that is read. A full table is under 20,000 bytes of text and a full step list under 110,000. */
#define TEXT_BYTES ((size_t)1048576)

/* Each room has one byte more than is allowed (1 beyond STATION_LINE_TABLE_BYTES, STATION_LINE_STEPS_BYTES and TEXT_BYTES), so
 * that a file that is too long is seen. */
bool read_table(const char *path, uint8_t *table, size_t *len, struct reason *why);
bool read_steps(const char *path, uint8_t *steps, size_t *len, struct reason *why);
bool read_text(const char *path, uint8_t *text, size_t *len, struct reason *why);

/* Whether what is read from `path` is the very file that stands under `other`; of pipes and devices it is not asked. */
bool is_same_file(const char *path, const char *other);

/* How what is said of a file calls it. */
const char *name_of(const char *path);

#endif
