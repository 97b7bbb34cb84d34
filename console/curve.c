#include "curve.h"

enum { COLUMNS = 8, STEP_X = 148, STEP_Y = 136, TIP = 7 };

struct point place_at(size_t place) {
    int row = (int)(place / COLUMNS), column = (int)(place % COLUMNS);
    return (struct point){STEP_X * (row % 2 == 0 ? column : COLUMNS - 1 - column), -STEP_Y * row};
}

static int size_of(int number) {
    return number < 0 ? -number : number;
}

static int sign_of(int number) {
    return (number > 0) - (number < 0);
}

static struct point plus(struct point a, struct point b) {
    return (struct point){a.x + b.x, a.y + b.y};
}

static struct point minus(struct point a, struct point b) {
    return (struct point){a.x - b.x, a.y - b.y};
}

/* Where the way from the middle of a box towards a point leaves the box; the point is not the middle. */
static struct point edge_of_box(struct point middle, struct point towards) {
    struct point way = minus(towards, middle);
    int wide = size_of(way.x) * BOX_HEIGHT, high = size_of(way.y) * BOX_WIDTH;
    if (wide >= high && way.x != 0)
        return plus(middle, (struct point){sign_of(way.x) * BOX_WIDTH / 2, way.y * (BOX_WIDTH / 2) / size_of(way.x)});
    if (way.y != 0)
        return plus(middle, (struct point){way.x * (BOX_HEIGHT / 2) / size_of(way.y), sign_of(way.y) * BOX_HEIGHT / 2});
    return middle;
}

/* How far the two middle points of a curve lie beside the straight way: above it to the right, below it to the left, and likewise
 * up and down. Far ones in a row pass between two rows. */
static struct point bow_of(struct point way, bool introduction) {
    int columns = size_of(way.x) / STEP_X, rows = size_of(way.y) / STEP_Y, near = introduction ? 30 : 10;
    if (rows == 0)
        return (struct point){0, sign_of(way.x) * (columns == 1 ? near : (38 + 4 * columns) * 4 / 3 + (introduction ? 10 : 0))};
    if (columns == 0 && rows == 1)
        return (struct point){-sign_of(way.y) * near, 0};
    int share = introduction ? 20 : 12;
    return (struct point){-way.y * share / 100, way.x * share / 100};
}

/* The curve proper ends where its arrow's head begins. The label stands outside it, on the side of the bow. */
static void put_head(struct curve *curve, struct point bow) {
    struct point back = minus(curve->points[2], curve->tip);
    int x = size_of(back.x), y = size_of(back.y), length = (96 * (x > y ? x : y) + 40 * (x > y ? y : x)) / 100;
    curve->points[3] = curve->tip;
    if (length > 0)
        curve->points[3] = plus(curve->tip, (struct point){back.x * TIP / length, back.y * TIP / length});
    curve->label.x =
        (curve->points[0].x + 3 * curve->points[1].x + 3 * curve->points[2].x + curve->points[3].x) / 8 + 14 * sign_of(bow.x);
    curve->label.y =
        (curve->points[0].y + 3 * curve->points[1].y + 3 * curve->points[2].y + curve->points[3].y) / 8 + 8 * sign_of(bow.y);
}

/* From a box to itself: out of its upper side and in again. */
static struct curve loop_at(struct point middle) {
    int top = middle.y + BOX_HEIGHT / 2, side = BOX_WIDTH / 4;
    struct curve curve = {{{middle.x - side, top}, {middle.x - side - 6, top + 36}, {middle.x + side + 6, top + 36}, {0, 0}},
                          {middle.x + side, top},
                          {0, 0}};
    put_head(&curve, (struct point){0, 1});
    return curve;
}

/* Between boxes side by side: from side to side, so that the head is seen in the narrow gap. */
static struct curve short_between(struct point a, struct point b, struct point way, struct point bow) {
    struct point half = {sign_of(way.x) * BOX_WIDTH / 2, sign_of(way.y) * BOX_HEIGHT / 2};
    struct point side = {bow.x * 2 / 3, bow.y * 2 / 3};
    struct point start = plus(plus(a, half), side), end = plus(minus(b, half), side), gap = minus(end, start),
                 rise = minus(bow, side);
    struct curve curve = {{start, plus(plus(start, rise), (struct point){gap.x / 3, gap.y / 3}),
                           plus(minus(end, (struct point){gap.x / 3, gap.y / 3}), rise), end},
                          end,
                          {0, 0}};
    put_head(&curve, bow);
    return curve;
}

struct curve curve_between(size_t from, size_t to, bool introduction) {
    struct point a = place_at(from), b = place_at(to), way = minus(b, a), bow = bow_of(way, introduction);
    if (from == to)
        return loop_at(a);
    if (size_of(way.x) + size_of(way.y) <= (way.y == 0 ? STEP_X : STEP_Y))
        return short_between(a, b, way, bow);
    struct point third = {way.x * 3 / 10, way.y * 3 / 10};
    struct curve curve = {{{0, 0}, plus(plus(a, third), bow), plus(minus(b, third), bow), {0, 0}}, {0, 0}, {0, 0}};
    curve.points[0] = edge_of_box(a, curve.points[1]);
    curve.tip = edge_of_box(b, curve.points[2]);
    put_head(&curve, bow);
    return curve;
}
