/* 10 to 15: the run stops at a refused step, after steps that have changed the table; the table after these is written, the refused step
 * has changed nothing, and a step behind it that could be done is not. At 14 there is a reason (document 02, T-02), and the leave question
 * about what was written gives the same one. */
#include <string.h>

#include "calls.h"
#include "cases.h"
#include "tries.h"

/* Two steps that are done, the refused one, and one that could be done. */
struct list {
    uint8_t bytes[4 * STEP];
};

/* What a run stops with: a number, and at 14 a reason and a holder. */
struct end {
    uint32_t number, reason, holder;
};

static const struct end malformed = {10, 0, 0}, absent = {11, 0, 0}, not_in_bag = {12, 0, 0}, staying = {13, 0, 0};
static const struct end full = {15, 0, 0};
static const struct end own_bag = {14, STATION_LINE_OWN_BAG, 0};

static struct end held_by(uint32_t holder) {
    return (struct end){14, STATION_LINE_HELD_BY, holder};
}

static void stop(const char *what, struct end end, const uint8_t *table, size_t len, struct list *list, const uint8_t *after,
                 uint32_t stations) {
    struct bytes written = {after, (size_t)BLOCK * stations};
    begin_case(what);
    expect_run((struct bytes){table, len}, (struct bytes){list->bytes, sizeof list->bytes}, len + 100,
               (struct station_line_ran){end.number, 2, stations, end.reason, end.holder}, written);
    if (end.number == STATION_LINE_HELD)
        expect_leave(written, get32(list->bytes + 2 * STEP + 4), (struct station_line_leave){0, end.reason, end.holder});
}

/* The example after "deliver to 5 introduction 7" and a timeout of 3; 5 and 7 may be leaving. */
static void put_changed(uint8_t *table, int five_leaves, int seven_leaves) {
    put_block(table, 3, 0, 5, 0);
    put_block(table + BLOCK, 5, 3, 7, five_leaves);
    add_message(table + BLOCK, INTRODUCTION, 3);
    put_block(table + 2 * BLOCK, 7, 0, 0, seven_leaves);
    add_message(table + 2 * BLOCK, INTRODUCTION, 9);
    put_block(table + 3 * BLOCK, 9, 5, 0, 0);
}

/* These two steps, a third, and a timeout of 9. */
static void stop_changed(const char *what, struct end end, int five_leaves, int seven_leaves, uint32_t action, uint32_t kind,
                         uint32_t station, uint32_t of) {
    uint8_t table[EXAMPLE], after[EXAMPLE];
    struct list list;
    put_example(table);
    put16(table + BLOCK + 2, (uint32_t)five_leaves);
    seal(table + BLOCK);
    put_block(table + 2 * BLOCK, 7, 0, 0, seven_leaves);
    put_changed(after, five_leaves, seven_leaves);
    put_step(list.bytes, DELIVER, INTRODUCTION, 5, 7);
    put_step(list.bytes + STEP, TIMEOUT, 0, 3, 0);
    put_step(list.bytes + 2 * STEP, action, kind, station, of);
    put_step(list.bytes + 3 * STEP, TIMEOUT, 0, 9, 0);
    stop(what, end, table, sizeof table, &list, after, 4);
}

/* A delivery fills the bag of 7, so that a timeout of 5 finds it full: 3 receives nothing. */
static void stop_at_full_bag(void) {
    uint8_t table[EXAMPLE], after[EXAMPLE];
    struct list list;
    put_example(table);
    put_changed(after, 0, 0);
    for (int k = 0; k < 31; k++) {
        add_message(table + 2 * BLOCK, REMOVE_LEFT, 0);
        add_message(after + 2 * BLOCK, REMOVE_LEFT, 0);
    }
    put_step(list.bytes, DELIVER, INTRODUCTION, 5, 7);
    put_step(list.bytes + STEP, TIMEOUT, 0, 3, 0);
    put_step(list.bytes + 2 * STEP, TIMEOUT, 0, 5, 0);
    put_step(list.bytes + 3 * STEP, TIMEOUT, 0, 9, 0);
    stop("15: a bag that the run has filled", full, table, sizeof table, &list, after, 4);
}

/* 5 exits between 3 and 9, which nobody names, so that there is no longer a station 5: two blocks are written in a room for three. */
static void stop_after_exit(void) {
    uint8_t table[3 * BLOCK], after[2 * BLOCK];
    struct list list;
    put_block(table, 9, 0, 0, 0);
    put_block(table + BLOCK, 5, 3, 9, 1);
    put_block(table + 2 * BLOCK, 3, 0, 0, 0);
    put_block(after, 3, 0, 0, 0);
    add_message(after, INTRODUCTION, 9);
    put_block(after + BLOCK, 9, 3, 0, 0);
    put_step(list.bytes, EXIT, 0, 5, 0);
    put_step(list.bytes + STEP, DELIVER, INTRODUCTION, 9, 3);
    put_step(list.bytes + 2 * STEP, TIMEOUT, 0, 5, 0);
    put_step(list.bytes + 3 * STEP, DELIVER, INTRODUCTION, 3, 9);
    stop("11: a station that has gone", absent, table, sizeof table, &list, after, 2);
}

/* 5 is leaving, with an empty bag, between 2, 6 and 999,999, which are stored by falling number. 2 has a right, 999,999 a left, and 6 an
 * introduction in its bag; each of these may name 5. The two steps done are deliveries to 6 and to 2. */
static void put_held(uint8_t *table, uint32_t right_of_2, uint32_t at_6, uint32_t left_of_last) {
    put_block(table, 999999, left_of_last, 0, 0);
    put_block(table + BLOCK, 6, 0, 0, 0);
    add_message(table + BLOCK, INTRODUCTION, at_6);
    put_block(table + 2 * BLOCK, 5, 2, 6, 1);
    put_block(table + 3 * BLOCK, 2, 0, right_of_2, 0);
}

static void stop_held(const char *what, struct end end, uint32_t right_of_2, uint32_t at_6, uint32_t left_of_last) {
    uint8_t table[EXAMPLE], after[EXAMPLE];
    struct list list;
    put_held(table, right_of_2, at_6, left_of_last);
    for (size_t k = 0; k < 4; k++)
        memcpy(after + k * BLOCK, table + (3 - k) * BLOCK, BLOCK);
    add_message(table + BLOCK, INTRODUCTION, 6);
    add_message(table + 3 * BLOCK, REMOVE_LEFT, 0);
    put_step(list.bytes, DELIVER, INTRODUCTION, 6, 6);
    put_step(list.bytes + STEP, DELIVER, REMOVE_LEFT, 2, 0);
    put_step(list.bytes + 2 * STEP, EXIT, 0, 5, 0);
    put_step(list.bytes + 3 * STEP, TIMEOUT, 0, 5, 0);
    stop(what, end, table, sizeof table, &list, after, 4);
}

void try_stops(void) {
    stop_changed("10: action 4", malformed, 0, 0, 4, 0, 5, 0);
    stop_changed("10: station 0", malformed, 0, 0, TIMEOUT, 0, 0, 0);
    stop_changed("10: station 1,000,000", malformed, 0, 0, TIMEOUT, 0, 1000000, 0);
    stop_changed("10: a timeout with a number", malformed, 0, 0, TIMEOUT, 0, 5, 7);
    stop_changed("10: an exit with a kind", malformed, 0, 0, EXIT, REMOVE_LEFT, 5, 0);
    stop_changed("10: kind 4", malformed, 0, 0, DELIVER, 4, 5, 0);
    stop_changed("10: a remove-right with a number", malformed, 0, 0, DELIVER, REMOVE_RIGHT, 5, 7);
    stop_changed("11: station 6", absent, 0, 0, TIMEOUT, 0, 6, 0);
    stop_after_exit();
    stop_changed("12: the one copy is gone", not_in_bag, 0, 0, DELIVER, INTRODUCTION, 5, 7);
    stop_changed("12: another number of the same kind", not_in_bag, 0, 0, DELIVER, INTRODUCTION, 7, 5);
    stop_changed("13: exit, staying", staying, 0, 0, EXIT, 0, 5, 0);
    stop_changed("14: exit, a message in its own bag that the run has put there", own_bag, 1, 0, EXIT, 0, 5, 0);
    stop_changed("14: exit, a message in its own bag, and a neighbour of another", own_bag, 0, 1, EXIT, 0, 7, 0);
    stop_held("14: exit, held by the smallest of three, stored last", held_by(2), 5, 5, 5);
    stop_held("14: exit, held by an introduction alone", held_by(6), 0, 5, 0);
    stop_held("14: exit, held by an introduction below a neighbour", held_by(6), 0, 5, 5);
    stop_held("14: exit, held by a neighbour below an introduction", held_by(2), 5, 5, 0);
    stop_held("14: exit, held by the largest", held_by(999999), 0, 2, 5);
    stop_at_full_bag();
}
