/* The two lasting facts (document 02, T-07) as a desk meets them: it asks, runs a list, and asks again about what was written. A table
 * that is in line stays so; a station that may leave may still leave, and then it does. Behind each fact stand the cases in which one of
 * its premises is missing. */
#include "calls.h"
#include "cases.h"
#include "leaves.h"
#include "tries.h"

enum { THREE = 3 * BLOCK, FOUR = 4 * BLOCK };

/* Steps as action, kind, station and number. */
static struct bytes put_steps(uint8_t *list, const uint32_t (*steps)[4], size_t count) {
    for (size_t k = 0; k < count; k++)
        put_step(list + STEP * k, steps[k][0], steps[k][1], steps[k][2], steps[k][3]);
    return (struct bytes){list, STEP * count};
}

/* A run that is answered 0 and writes this, in a room that is exact. */
static void run_all(struct bytes table, struct bytes steps, struct bytes after) {
    struct station_line_ran done = {0, (uint32_t)(steps.len / STEP), (uint32_t)(after.len / BLOCK), 0, 0};
    expect_run(table, steps, table.len, done, after);
}

/* 3, 5 and 9 with each other for neighbours and their bags empty, all staying but for 5, which may be leaving. */
static void put_neighbours(uint8_t *table, int five_leaves) {
    put_block(table, 3, 0, 5, 0);
    put_block(table + BLOCK, 5, 3, 9, five_leaves);
    put_block(table + 2 * BLOCK, 9, 5, 0, 0);
}

/* Two introductions more, behind the messages that the block has. */
static void add_introductions(uint8_t *block, uint32_t first, uint32_t second) {
    add_message(block, INTRODUCTION, first);
    add_message(block, INTRODUCTION, second);
}

/* "A table that is in line by T-04 is in line after every run answered 0." */
static void stay_in_line(void) {
    static const uint32_t steps[][4] = {{TIMEOUT, 0, 5, 0}, {DELIVER, INTRODUCTION, 3, 9}, {DELIVER, INTRODUCTION, 5, 9},
                                        {DELIVER, INTRODUCTION, 9, 3}, {DELIVER, INTRODUCTION, 5, 5}, {TIMEOUT, 0, 3, 0}};
    uint8_t table[THREE], after[THREE], list[6 * STEP];
    struct bytes before = {table, THREE}, written = {after, THREE};
    put_neighbours(table, 0);
    add_introductions(table, 5, 9);
    add_message(table + BLOCK, INTRODUCTION, 5);
    add_introductions(table + 2 * BLOCK, 3, 3);
    put_neighbours(after, 0);
    add_introductions(after, 5, 5);
    add_introductions(after + BLOCK, 3, 3);
    add_introductions(after + 2 * BLOCK, 3, 5);
    begin_case("lasting: in line, a run, and in line");
    expect_line(before, 0, 1);
    run_all(before, put_steps(list, steps, 6), written);
    expect_line(written, 0, 1);
}

/* "And no such run holds an exit": it stops there with 13, and what was written is in line. */
static void stop_at_exit(void) {
    static const uint32_t steps[][4] = {{TIMEOUT, 0, 3, 0}, {EXIT, 0, 5, 0}};
    uint8_t table[2 * BLOCK], after[2 * BLOCK], list[2 * STEP];
    struct bytes before = {table, sizeof table}, written = {after, sizeof after};
    put_block(table, 3, 0, 5, 0);
    put_block(table + BLOCK, 5, 3, 0, 0);
    put_block(after, 3, 0, 5, 0);
    put_block(after + BLOCK, 5, 3, 0, 0);
    add_message(after + BLOCK, INTRODUCTION, 3);
    begin_case("lasting: in line, 13 at an exit, and in line");
    expect_line(before, 0, 1);
    expect_run(before, put_steps(list, steps, 2), before.len, (struct station_line_ran){13, 1, 2, 0, 0}, written);
    expect_line(written, 0, 1);
}

/* The neighbours are as in document 01, but a removal waits: T-04 says no, and the neighbours do not last. */
static void lose_to_removal(void) {
    static const uint32_t steps[][4] = {{DELIVER, REMOVE_LEFT, 5, 0}, {DELIVER, INTRODUCTION, 3, 5}};
    uint8_t table[THREE], after[THREE], list[2 * STEP];
    struct bytes before = {table, THREE}, written = {after, THREE};
    put_neighbours(table, 0);
    add_message(table + BLOCK, REMOVE_LEFT, 0);
    put_neighbours(after, 0);
    put_block(after + BLOCK, 5, 0, 9, 0);
    begin_case("lasting: not in line while a removal waits, and 5 loses its left");
    expect_line(before, 0, 0);
    run_all(before, put_steps(list, steps, 2), written);
    expect_line(written, 0, 0);
}

/* The same with a station that leaves: the list holds its exit. */
static void lose_to_exit(void) {
    static const uint32_t steps[][4] = {{TIMEOUT, 0, 5, 0}, {DELIVER, REMOVE_RIGHT, 3, 0}, {DELIVER, REMOVE_LEFT, 9, 0},
                                        {DELIVER, INTRODUCTION, 5, 3}, {DELIVER, INTRODUCTION, 5, 9}, {EXIT, 0, 5, 0}};
    uint8_t table[THREE], after[2 * BLOCK], list[6 * STEP];
    struct bytes before = {table, THREE}, written = {after, sizeof after};
    put_neighbours(table, 1);
    put_block(after, 3, 0, 0, 0);
    add_message(after, INTRODUCTION, 9);
    put_block(after + BLOCK, 9, 0, 0, 0);
    add_message(after + BLOCK, INTRODUCTION, 3);
    begin_case("lasting: not in line while 5 is leaving, and it leaves a gap");
    expect_line(before, 0, 0);
    run_all(before, put_steps(list, steps, 6), written);
    expect_line(written, 0, 0);
}

/* 5 between 3 and 9, which have each other and not 5 for neighbours; the bag of 9 may hold an introduction of 3. */
static void put_free(uint8_t *table, int five_leaves, int waits) {
    put_block(table, 3, 0, 9, 0);
    put_block(table + BLOCK, 5, 3, 9, five_leaves);
    put_block(table + 2 * BLOCK, 9, 3, 0, 0);
    if (waits)
        add_message(table + 2 * BLOCK, INTRODUCTION, 3);
}

/* The exit of 5 over what was written: done where it is leaving, else 13, which writes the table as it was. */
static void let_go(struct bytes table, int leaving) {
    uint8_t after[2 * BLOCK], list[STEP];
    put_block(after, 3, 0, 9, 0);
    add_message(after, INTRODUCTION, 9);
    put_block(after + BLOCK, 9, 3, 0, 0);
    add_introductions(after + BLOCK, 3, 3);
    put_step(list, EXIT, 0, 5, 0);
    if (leaving)
        run_all(table, (struct bytes){list, STEP}, (struct bytes){after, sizeof after});
    else
        expect_run(table, (struct bytes){list, STEP}, table.len, (struct station_line_ran){13, 0, 3, 0, 0}, table);
}

/* "So a desk may ask now and let the truck go later": 3 and 9 send and receive, and 12, which nobody names either, leaves. */
static void leave_later(const char *what, int leaving) {
    static const uint32_t steps[][4] = {{TIMEOUT, 0, 3, 0}, {DELIVER, INTRODUCTION, 9, 3}, {TIMEOUT, 0, 9, 0},
                                        {EXIT, 0, 12, 0}, {DELIVER, INTRODUCTION, 3, 9}};
    uint8_t table[FOUR], after[THREE], list[5 * STEP];
    struct bytes before = {table, FOUR}, written = {after, THREE};
    put_free(table, leaving, 1);
    put_block(table + THREE, 12, 9, 0, 1);
    put_free(after, leaving, 1);
    begin_case(what);
    expect_leave(before, 5, may_leave);
    run_all(before, put_steps(list, steps, 5), written);
    expect_leave(written, 5, may_leave);
    let_go(written, leaving);
}

/* A step at the station itself: its timeout names it to both neighbours, and its exit takes it away. */
static void step_itself(void) {
    static const uint32_t named[][4] = {{TIMEOUT, 0, 9, 0}, {TIMEOUT, 0, 5, 0}}, gone[][4] = {{TIMEOUT, 0, 9, 0}, {EXIT, 0, 5, 0}};
    uint8_t table[THREE], after[THREE], left[2 * BLOCK], list[2 * STEP];
    struct bytes before = {table, THREE}, written = {after, THREE}, two = {left, sizeof left};
    put_free(table, 0, 0);
    put_free(after, 0, 0);
    add_introductions(after, 5, 9);
    add_message(after + 2 * BLOCK, INTRODUCTION, 5);
    begin_case("lasting: 5 may leave, and not after its own timeout");
    expect_leave(before, 5, may_leave);
    run_all(before, put_steps(list, named, 2), written);
    expect_leave(written, 5, held_by(3));
    put_free(table, 1, 0);
    put_block(left, 3, 0, 9, 0);
    add_introductions(left, 9, 9);
    put_block(left + BLOCK, 9, 3, 0, 0);
    add_message(left + BLOCK, INTRODUCTION, 3);
    begin_case("lasting: 5 may leave, and is absent after its own exit");
    expect_leave(before, 5, may_leave);
    run_all(before, put_steps(list, gone, 2), two);
    expect_leave(two, 5, absent);
}

/* NIDEC does not hold at first, since 3 has 5 for its right; the steps of 9 do not make it hold. */
static void held_at_first(void) {
    static const uint32_t steps[][4] = {{TIMEOUT, 0, 9, 0}, {DELIVER, INTRODUCTION, 9, 3}, {TIMEOUT, 0, 9, 0}};
    uint8_t table[THREE], after[THREE], list[3 * STEP];
    struct bytes before = {table, THREE}, written = {after, THREE};
    put_free(table, 1, 1);
    put_block(table, 3, 0, 5, 0);
    put_free(after, 1, 0);
    put_block(after, 3, 0, 5, 0);
    add_introductions(after, 9, 9);
    begin_case("lasting: 5 is held by 3 before a run without it, and after");
    expect_leave(before, 5, held_by(3));
    run_all(before, put_steps(list, steps, 3), written);
    expect_leave(written, 5, held_by(3));
}

/* A run that is refused with 9 writes nothing to ask about: the desk still has the table that it asked about. */
static void refuse_room(void) {
    uint8_t table[THREE], list[STEP];
    struct bytes before = {table, THREE};
    put_free(table, 1, 0);
    put_step(list, TIMEOUT, 0, 9, 0);
    begin_case("lasting: 5 may leave, and a run refused with 9 writes nothing");
    expect_leave(before, 5, may_leave);
    expect_run(before, (struct bytes){list, STEP}, THREE - 1, (struct station_line_ran){9, 0, 0, 0, 0}, no_bytes);
    put_neighbours(table, 0);
    begin_case("lasting: in line, and a run refused with 9 writes nothing");
    expect_line(before, 0, 1);
    expect_run(before, (struct bytes){list, STEP}, 0, (struct station_line_ran){9, 0, 0, 0, 0}, no_bytes);
}

void try_lasting(void) {
    stay_in_line();
    stop_at_exit();
    lose_to_removal();
    lose_to_exit();
    leave_later("lasting: 5 may leave, a run without it, and it may leave and does", 1);
    leave_later("lasting: the same while 5 is staying, and its exit is refused with 13", 0);
    step_itself();
    held_at_first();
    refuse_room();
}
