/* The printed listing (documents 01 and 02), and the lines for steps that go with it. Whether the printing worked is asked once, of the
 * stream, when all is printed. */
#ifndef LISTING_H
#define LISTING_H

#include <stdio.h>

#include "station_line_layout.h"
#include "walk.h"

/* "number, left, right (`-` for none), `stay` or `leave`, then messages as `i` with the number, `l` or `r`", in stored order, and
 * "`@` with the number, or nothing for 0" for the site code (document 02, T-05); a line. A message of another kind, which no accepted
 * table has, is `?` with kind and number. */
void print_station(FILE *out, const struct station_line_block *block);

/* The text of a message. */
struct message_text {
    char text[24];
};
struct message_text message_text(uint16_t kind, uint32_t number);

/* The text of a step: `timeout 5`, `deliver 5 i7`, `deliver 5 l`, `deliver 5 r` or `exit 5`, or the four fields of a malformed
 * one. */
struct step_text {
    char text[80];
};
struct step_text step_text(struct station_line_step step);
struct step_text malformed_text(struct station_line_step step);

/* What the leave question finds, and what the first line of the listing ends in at 14 (document 02, T-02): `yes`, `bag`, or
 * `held-by` and the holder; empty where there is no reason. */
struct leave_text {
    char text[24];
};
struct leave_text leave_text(uint32_t reason, uint32_t holder);

/* The first line of the listing, which ends in the reason where the run has one. */
void print_answer(FILE *out, struct station_line_ran ran);

/* A line for each station that the walk has left. */
void print_walk(FILE *out, struct walk *walk);

#endif
