/* The two questions, of tables that are accepted; those that are not stand with the refusals. */
#include "calls.h"
#include "cases.h"
#include "leaves.h"
#include "tries.h"

static void try_leave(void) {
    uint8_t table[EXAMPLE];
    put_example(table);
    struct bytes four = {table, EXAMPLE};
    begin_case("may leave: one with a message in its bag may not, whoever holds it");
    expect_leave(four, 5, own_bag);
    begin_case("may leave: a neighbour of another may not");
    expect_leave(four, 3, held_by(5));
    expect_leave(four, 9, held_by(5));
    begin_case("may leave: one introduced in a bag may not");
    expect_leave(four, 7, held_by(5));
    begin_case("may leave: 6 has no block");
    expect_leave(four, 6, absent);
    begin_case("may leave: no number at all has a block in the empty table");
    expect_leave(no_bytes, 5, absent);
    begin_case("may leave: 0 and numbers above 999,999 have no block");
    expect_leave(four, 0, absent);
    expect_leave(four, 1000000, absent);
    expect_leave(four, UINT32_MAX, absent);
    put_block(table, 7, 0, 9, 0);
    put_block(table + BLOCK, 9, 0, 0, 0);
    begin_case("may leave: 7 may, staying as it is");
    expect_leave((struct bytes){table, 2 * BLOCK}, 7, may_leave);
    add_message(table, REMOVE_LEFT, 0);
    begin_case("may leave: one with a message in its bag may not");
    expect_leave((struct bytes){table, 2 * BLOCK}, 7, own_bag);
    begin_case("may leave: one that its own bag introduces, and nobody else holds");
    put_block(table, 7, 0, 9, 1);
    add_message(table, INTRODUCTION, 7);
    expect_leave((struct bytes){table, 2 * BLOCK}, 7, own_bag);
}

/* A block with 32 messages. A holder of 40 has it as a neighbour or, where its own number is odd, as an introduction in the last place. */
static void put_full(uint8_t *block, uint32_t station, int holds) {
    int introduces = holds && station % 2 == 1;
    uint32_t neighbour = holds && !introduces ? 40 : 0;
    put_block(block, station, station > 40 ? neighbour : 0, station < 40 ? neighbour : 0, 0);
    for (int k = 0; k < 31; k++)
        add_message(block, REMOVE_LEFT, 0);
    add_message(block, introduces ? INTRODUCTION : REMOVE_LEFT, introduces ? 40 : 0);
}

/* 64 stations stored by falling number; of those beside 40 all hold it from `first` on. */
static void put_holders(uint8_t *table, uint32_t first) {
    for (uint32_t k = 1; k <= 64; k++)
        put_full(table + BLOCK * (64 - k), k, k >= first);
    put_block(table + BLOCK * 24, 40, 0, 0, 0);
}

/* "The smallest station", whatever the order of the blocks. */
static void try_holders(void) {
    static uint8_t table[64 * BLOCK];
    static const uint32_t firsts[] = {1, 2, 38, 39, 41, 42, 63, 64};
    begin_case("may leave: the smallest holder of many, stored last of them");
    for (size_t k = 0; k < sizeof firsts / sizeof firsts[0]; k++) {
        put_holders(table, firsts[k]);
        expect_leave((struct bytes){table, sizeof table}, 40, held_by(firsts[k]));
    }
    begin_case("may leave: 63 full bags, none of which introduces it");
    put_holders(table, 65);
    expect_leave((struct bytes){table, sizeof table}, 40, may_leave);
}

/* 9, 3 and 5 in line, stored in this order, with introductions that wait for 9. */
static void put_line(uint8_t *table) {
    put_block(table, 9, 5, 0, 0);
    put_block(table + BLOCK, 3, 0, 5, 0);
    put_block(table + 2 * BLOCK, 5, 3, 9, 0);
    add_message(table, INTRODUCTION, 3);
    add_message(table, INTRODUCTION, 3);
}

/* What is in line, and what is not for its neighbours alone. */
static void try_line(void) {
    uint8_t table[EXAMPLE];
    struct bytes three = {table, 3 * BLOCK};
    put_example(table);
    begin_case("in line: the example is not");
    expect_line((struct bytes){table, EXAMPLE}, 0, 0);
    begin_case("in line: the empty table");
    expect_line(no_bytes, 0, 1);
    begin_case("in line: three in any stored order, introductions waiting");
    put_line(table);
    expect_line(three, 0, 1);
    for (int k = 0; k < 32; k++)
        add_message(table + 2 * BLOCK, INTRODUCTION, 5);
    expect_line(three, 0, 1);
    begin_case("in line: not without one left");
    put_block(table, 9, 0, 0, 0);
    expect_line(three, 0, 0);
    begin_case("in line: not with a right that passes over another");
    put_line(table);
    put_block(table + BLOCK, 3, 0, 9, 0);
    expect_line(three, 0, 0);
}

/* Not in line for a removal or a leaving station alone, wherever it stands. */
static void try_unsettled(void) {
    uint8_t table[EXAMPLE];
    struct bytes three = {table, 3 * BLOCK};
    static const uint16_t removals[] = {REMOVE_LEFT, REMOVE_RIGHT};
    begin_case("in line: not with one removal, in any place of any bag");
    for (size_t at = 0; at < three.len; at += BLOCK)
        for (size_t k = 0; k < 2 * 30; k++) {
            put_line(table);
            for (size_t before = 0; before < k / 2; before++)
                add_message(table + at, INTRODUCTION, 9);
            add_message(table + at, removals[k % 2], 0);
            expect_line(three, 0, 0);
        }
    begin_case("in line: not with one station leaving, whichever it is");
    put_line(table);
    put_block(table, 9, 5, 0, 1);
    expect_line(three, 0, 0);
    put_line(table);
    put_block(table + BLOCK, 3, 0, 5, 1);
    expect_line(three, 0, 0);
    put_line(table);
    put_block(table + 2 * BLOCK, 5, 3, 9, 1);
    expect_line(three, 0, 0);
}

void try_questions(void) {
    try_leave();
    try_holders();
    try_line();
    try_unsettled();
}
