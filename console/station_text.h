/* Station lines and step lines read from text: what listing.c prints, read back. */
#ifndef STATION_TEXT_H
#define STATION_TEXT_H

#include <stdbool.h>

#include "station_line_layout.h"
#include "text.h"

/* One station or step from the words of a line. Where the line is none, says where and why and gives false. */
bool read_station_line(struct line line, struct station_line_block *block);
bool read_step_line(struct line line, struct station_line_step *step);

/* The word of a station's line that has a place in number 5, 6 or 7 of a table whose check gives that number; `before` of the
 * stations come before this one. False where no word of this line has. */
bool find_fault(uint32_t number, struct line line, const struct station_line_block *stations, size_t count, size_t before,
                struct word *word);

#endif
