/* Site codes (document 02, T-05): "Every step carries it unchanged. It plays no part in any order, step rule or NIDEC." A run over a table
 * with codes keeps each of them in bytes 18-19 of its station's block. The same run over the table without them gives the same five
 * numbers, and the same bytes but for the codes and the check words. */
#include <string.h>

#include "calls.h"
#include "cases.h"
#include "leaves.h"
#include "tries.h"

enum { MOST_SITE = 9999, FIVE = 5 * BLOCK };

static void put_coded(uint8_t *block, uint32_t station, uint32_t left, uint32_t right, int leaving, uint32_t site) {
    put_block(block, station, left, right, leaving);
    put_site(block, site);
}

/* A table with its codes taken out. */
static struct bytes without_sites(uint8_t *plain, struct bytes table) {
    memcpy(plain, table.at, table.len);
    for (size_t at = 0; at < table.len; at += BLOCK)
        put_site(plain + at, 0);
    return (struct bytes){plain, table.len};
}

/* The run with the codes and without them, in a room that is exact and in a longer one. */
static void run_both(const char *what, struct bytes table, struct bytes steps, struct station_line_ran wanted, struct bytes after) {
    uint8_t plain[FIVE], plain_after[FIVE];
    begin_case(what);
    expect_run(table, steps, table.len, wanted, after);
    expect_run(table, steps, table.len + 700, wanted, after);
    expect_run(without_sites(plain, table), steps, table.len, wanted, without_sites(plain_after, after));
}

/* 5 is leaving between 3 and 9; 12 has an introduction of 3 in its bag; the code of 7 is none. They are stored by falling number. */
static void put_five(uint8_t *table) {
    put_coded(table, 12, 0, 0, 0, 1);
    add_message(table, INTRODUCTION, 3);
    put_coded(table + BLOCK, 9, 5, 0, 0, MOST_SITE);
    put_coded(table + 2 * BLOCK, 7, 0, 0, 0, 0);
    put_coded(table + 3 * BLOCK, 5, 3, 9, 1, 255);
    put_coded(table + 4 * BLOCK, 3, 0, 5, 0, 256);
}

/* The same in written order. */
static void put_written(uint8_t *after) {
    uint8_t table[FIVE];
    put_five(table);
    for (size_t k = 0; k < 5; k++)
        memcpy(after + k * BLOCK, table + (4 - k) * BLOCK, BLOCK);
}

/* 5 has itself taken out by both neighbours and exits; they meet, 3 times out, and 12 takes 3 for its left. */
static void keep_through_all(void) {
    static const uint32_t list[][4] = {{TIMEOUT, 0, 5, 0}, {DELIVER, REMOVE_RIGHT, 3, 0}, {DELIVER, REMOVE_LEFT, 9, 0},
                                       {DELIVER, INTRODUCTION, 5, 3}, {DELIVER, INTRODUCTION, 5, 9}, {EXIT, 0, 5, 0},
                                       {DELIVER, INTRODUCTION, 3, 9}, {DELIVER, INTRODUCTION, 9, 3}, {TIMEOUT, 0, 3, 0},
                                       {DELIVER, INTRODUCTION, 12, 3}};
    uint8_t table[FIVE], after[4 * BLOCK], steps[10 * STEP];
    put_five(table);
    for (size_t k = 0; k < 10; k++)
        put_step(steps + STEP * k, list[k][0], list[k][1], list[k][2], list[k][3]);
    put_coded(after, 3, 0, 9, 0, 256);
    put_coded(after + BLOCK, 7, 0, 0, 0, 0);
    put_coded(after + 2 * BLOCK, 9, 3, 0, 0, MOST_SITE);
    add_message(after + 2 * BLOCK, INTRODUCTION, 3);
    put_coded(after + 3 * BLOCK, 12, 3, 0, 0, 1);
    run_both("sites: deliveries, timeouts and an exit", (struct bytes){table, FIVE}, (struct bytes){steps, sizeof steps},
             (struct station_line_ran){0, 10, 4, 0, 0}, (struct bytes){after, sizeof after});
}

/* No step; an exit that 3 holds after a timeout; a timeout that finds the bag of 9 full. */
static void keep_through_few(void) {
    uint8_t table[FIVE], after[FIVE], steps[2 * STEP];
    struct bytes before = {table, FIVE}, written = {after, FIVE};
    put_five(table);
    put_written(after);
    run_both("sites: no step", before, no_bytes, (struct station_line_ran){0, 0, 5, 0, 0}, written);
    put_step(steps, TIMEOUT, 0, 5, 0);
    put_step(steps + STEP, EXIT, 0, 5, 0);
    add_message(after, REMOVE_RIGHT, 0);
    add_message(after + 3 * BLOCK, REMOVE_LEFT, 0);
    run_both("sites: 14 after a timeout", before, (struct bytes){steps, sizeof steps},
             (struct station_line_ran){14, 1, 5, STATION_LINE_HELD_BY, 3}, written);
    put_written(after);
    for (int k = 0; k < 32; k++) {
        add_message(table + BLOCK, REMOVE_LEFT, 0);
        add_message(after + 3 * BLOCK, REMOVE_LEFT, 0);
    }
    run_both("sites: 15", before, (struct bytes){steps, STEP}, (struct station_line_ran){15, 0, 5, 0, 0}, written);
}

/* "a site code, 0 to 9,999", "It refuses a code above 9,999 with 4": all that two bytes can say. */
static void try_codes(void) {
    uint8_t block[BLOCK];
    struct bytes one = {block, BLOCK};
    put_block(block, 5, 0, 0, 0);
    begin_case("sites: 9,999 is accepted, and so is each below it");
    for (uint32_t site = 0; site <= MOST_SITE; site++) {
        put_site(block, site);
        expect_check(one, 0);
    }
    begin_case("sites: each of them is written as it was read");
    for (uint32_t site = 0; site <= MOST_SITE; site++) {
        put_site(block, site);
        expect_run(one, no_bytes, BLOCK, (struct station_line_ran){0, 0, 1, 0, 0}, one);
    }
    begin_case("sites: 10,000 is refused, and so is each above it");
    for (uint32_t site = MOST_SITE + 1; site <= UINT16_MAX; site++) {
        put_site(block, site);
        expect_check(one, 4);
    }
}

/* 5 may exit between 3 and 9, and its number is the code of all three. */
static void ask_among_codes(void) {
    static const uint32_t asked[] = {3, 5, 9};
    uint8_t table[3 * BLOCK], after[2 * BLOCK], steps[4 * STEP];
    struct station_line_leave records[] = {held_by(5), may_leave, held_by(5)};
    struct bytes three = {table, sizeof table};
    put_coded(table, 3, 0, 0, 0, 5);
    put_coded(table + BLOCK, 5, 3, 9, 1, 5);
    put_coded(table + 2 * BLOCK, 9, 0, 0, 0, 5);
    put_coded(after, 3, 0, 0, 0, 5);
    add_message(after, INTRODUCTION, 9);
    put_coded(after + BLOCK, 9, 0, 0, 0, 5);
    add_message(after + BLOCK, INTRODUCTION, 3);
    put_step(steps, TIMEOUT, 0, 3, 0);
    put_step(steps + STEP, TIMEOUT, 0, 5, 0);
    put_step(steps + 2 * STEP, EXIT, 0, 5, 0);
    put_step(steps + 3 * STEP, TIMEOUT, 0, 9, 0);
    run_both("sites: an exit of the station whose number is every code", three, (struct bytes){steps + 2 * STEP, STEP},
             (struct station_line_ran){0, 1, 2, 0, 0}, (struct bytes){after, sizeof after});
    begin_case("sites: the same station may leave, and a roll call tells so");
    expect_roll_call(three, (struct numbers){asked, 3}, 3, (struct station_line_filled){0, 3}, records);
    begin_case("sites: it stands in the list of allowed steps");
    expect_allowed(three, sizeof steps, (struct station_line_filled){0, 4}, (struct bytes){steps, sizeof steps});
}

/* Three in line whose codes fall as their numbers rise. */
static void look_at_codes(void) {
    uint8_t table[3 * BLOCK];
    struct bytes three = {table, sizeof table};
    put_coded(table, 9, 5, 0, 0, 1);
    put_coded(table + BLOCK, 5, 3, 9, 0, 256);
    put_coded(table + 2 * BLOCK, 3, 0, 5, 0, MOST_SITE);
    begin_case("sites: in line");
    expect_line(three, 0, 1);
    begin_case("sites: the view gives the blocks");
    for (size_t k = 0; k < 3; k++)
        expect_view(three, k, (struct station_line_viewed){0, 1, BLOCK * k, k + 1});
    expect_view(three, 3, (struct station_line_viewed){0, 0, 0, 3});
}

void try_sites(void) {
    keep_through_all();
    keep_through_few();
    try_codes();
    ask_among_codes();
    look_at_codes();
}
