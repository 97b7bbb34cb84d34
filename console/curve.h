/* Where things stand in a drawing, in points with y upwards: the stations in rows of eight, every second row backwards, so that
 * who follows whom by number stands beside it; and the arrows between them. */
#ifndef CURVE_H
#define CURVE_H

#include <stdbool.h>
#include <stddef.h>

/* The size of a station's box. */
enum { BOX_WIDTH = 96, BOX_HEIGHT = 56 };

struct point {
    int x, y;
};

/* A cubic curve from one box to another, the tip of its arrow, and where its label stands. */
struct curve {
    struct point points[4], tip, label;
};

/* The middle of the box in this place, counted from 0. */
struct point place_at(size_t place);

/* The arrow between two places. Those there and back lie on two sides, those of introductions outside those of neighbours. */
struct curve curve_between(size_t from, size_t to, bool introduction);

#endif
