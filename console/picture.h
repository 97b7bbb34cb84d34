/* The line as text for Graphviz: solid arrows to neighbours, dashed ones to stations introduced in a bag. */
#ifndef PICTURE_H
#define PICTURE_H

#include <stdbool.h>

#include "snapshot.h"

/* What is drawn: the links that touch one station, 0 for all links; and whether introductions are left out. */
struct choice {
    uint32_t around;
    bool only_neighbours;
};

/* Prints the stations that have a drawn link, or all of them, and the links. The stations are put in order by number. */
void print_picture(struct snapshot *snapshot, struct choice choice);

#endif
