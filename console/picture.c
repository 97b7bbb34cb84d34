#include "picture.h"

#include <stdio.h>
#include <stdlib.h>

#include "curve.h"

static const char top[] =
    "digraph line {\n"
    "    layout=nop2;\n"
    "    outputorder=edgesfirst;\n"
    "    node [shape=box, style=\"rounded,filled\", fillcolor=white, fixedsize=true, width=1.333, height=0.778, fontsize=11];\n"
    "    edge [arrowsize=0.7, fontsize=10];\n";

static int by_number(const void *a, const void *b) {
    uint32_t x = ((const struct station_line_block *)a)->station, y = ((const struct station_line_block *)b)->station;
    return (x > y) - (x < y);
}

static size_t index_of(const struct snapshot *snapshot, uint32_t station) {
    size_t k = 0;
    while (k < snapshot->count && snapshot->stations[k].station != station)
        k++;
    return k;
}

static bool is_introduction(const struct station_line_block *station, size_t k) {
    return station->messages[k].kind == STATION_LINE_INTRODUCTION;
}

static bool is_full(const struct station_line_block *station) {
    return station_line_bag_size(station) == STATION_LINE_MOST_MESSAGES;
}

static bool is_leaving(const struct station_line_block *station) {
    return (station->flags & STATION_LINE_LEAVING) != 0;
}

/* Whether a link between the two is drawn. */
static bool is_drawn(struct choice choice, uint32_t from, uint32_t to) {
    return choice.around == 0 || choice.around == from || choice.around == to;
}

/* Whether a station has a link to another, as far as links of its kind are drawn. */
static bool has_link(const struct station_line_block *from, uint32_t to, struct choice choice) {
    if (from->left == to || from->right == to)
        return true;
    for (size_t k = 0; k < station_line_bag_size(from) && !choice.only_neighbours; k++)
        if (is_introduction(from, k) && from->messages[k].number == to)
            return true;
    return false;
}

/* Takes out the stations that have no link with the one around which is drawn. */
static void leave_out(struct snapshot *snapshot, struct choice choice) {
    const struct station_line_block *found = find_station(snapshot, choice.around);
    if (found == NULL)
        return;
    struct station_line_block middle = *found;
    size_t kept = 0;
    for (size_t k = 0; k < snapshot->count; k++) {
        const struct station_line_block *other = &snapshot->stations[k];
        if (other->station == choice.around || has_link(other, choice.around, choice) ||
            has_link(&middle, other->station, choice))
            snapshot->stations[kept++] = *other;
    }
    snapshot->count = kept;
}

/* `l×2` where the bag holds two remove-left; nothing where it holds none. */
static void print_waiting(const struct station_line_block *station, uint16_t kind, const char *letter, const char *before) {
    size_t many = copies(station, (struct station_line_message){kind, 0, 0});
    if (many > 0)
        (void)printf("%s%s", before, letter);
    if (many > 1)
        (void)printf("×%zu", many);
}

/* The number, the leaving mark, what waits to be removed, how full the bag is, and the site code. */
static void print_label(const struct station_line_block *station) {
    bool left = copies(station, (struct station_line_message){STATION_LINE_REMOVE_LEFT, 0, 0}) > 0;
    (void)printf("%u%s", (unsigned)station->station, is_leaving(station) ? " leaving" : "");
    print_waiting(station, STATION_LINE_REMOVE_LEFT, "l", "\\n");
    print_waiting(station, STATION_LINE_REMOVE_RIGHT, "r", left ? " " : "\\n");
    if (station_line_bag_size(station) > 0)
        (void)printf("\\n%zu/%d", station_line_bag_size(station), STATION_LINE_MOST_MESSAGES);
    if (station->site != 0)
        (void)printf("%s@%u", station_line_bag_size(station) > 0 ? " " : "\\n", (unsigned)station->site);
}

static void print_node(const struct station_line_block *station, size_t place) {
    struct point point = place_at(place);
    (void)printf("    %u [label=\"", (unsigned)station->station);
    print_label(station);
    (void)printf("\", pos=\"%d,%d\"", point.x, point.y);
    if (is_full(station))
        (void)printf(", color=red, penwidth=2, fillcolor=\"%s\"", is_leaving(station) ? "lightgrey:#ff9c9c" : "#ff9c9c");
    else if (is_leaving(station))
        (void)printf(", fillcolor=lightgrey");
    (void)printf("];\n");
}

/* An arrow for so many copies of a link; both of its stations are among those that are drawn. */
static void print_arrow(const struct snapshot *snapshot, size_t from, uint32_t to, bool introduction, size_t many) {
    struct curve curve = curve_between(from, index_of(snapshot, to), introduction);
    const struct point *at = curve.points;
    (void)printf("    %u -> %u [%s", (unsigned)snapshot->stations[from].station, (unsigned)to,
                 introduction ? "style=dashed, color=\"#3050a0\", " : "");
    (void)printf("pos=\"e,%d,%d %d,%d %d,%d %d,%d %d,%d\"", curve.tip.x, curve.tip.y, at[0].x, at[0].y, at[1].x, at[1].y, at[2].x,
                 at[2].y, at[3].x, at[3].y);
    if (many > 1)
        (void)printf(", label=\"×%zu\", lp=\"%d,%d\"", many, curve.label.x, curve.label.y);
    (void)printf("];\n");
}

static void print_arrows(const struct snapshot *snapshot, size_t place, struct choice choice) {
    const struct station_line_block *station = &snapshot->stations[place];
    if (station->left != 0 && is_drawn(choice, station->station, station->left))
        print_arrow(snapshot, place, station->left, false, 1);
    if (station->right != 0 && is_drawn(choice, station->station, station->right))
        print_arrow(snapshot, place, station->right, false, 1);
    for (size_t k = 0; k < station_line_bag_size(station) && !choice.only_neighbours; k++)
        if (is_introduction(station, k) && is_first_copy(station, k) &&
            is_drawn(choice, station->station, station->messages[k].number))
            print_arrow(snapshot, place, station->messages[k].number, true, copies(station, station->messages[k]));
}

void print_picture(struct snapshot *snapshot, struct choice choice) {
    qsort(snapshot->stations, snapshot->count, sizeof snapshot->stations[0], by_number);
    leave_out(snapshot, choice);
    (void)fputs(top, stdout);
    for (size_t k = 0; k < snapshot->count; k++)
        print_node(&snapshot->stations[k], k);
    for (size_t k = 0; k < snapshot->count; k++)
        print_arrows(snapshot, k, choice);
    (void)fputs("}\n", stdout);
}
