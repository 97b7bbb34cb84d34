/* The roll call (document 02, T-03): a record for each question, in the order of the questions; too few records, just as many and more; the
 * refusals and their order. Tables that are not accepted stand with the refusals. */
#include "calls.h"
#include "cases.h"
#include "leaves.h"
#include "tries.h"

enum { MOST = 64 };

static const struct station_line_filled too_many = {17, 0}, too_few_records = {9, 0};

#define ASKED(array) ((struct numbers){array, sizeof(array) / sizeof(array)[0]})

/* These questions have these records, whether there are just as many or more; one less is too few. */
static void expect_records(struct bytes table, struct numbers asked, const struct station_line_leave *records) {
    struct station_line_filled filled = {0, (uint32_t)asked.count};
    expect_roll_call(table, asked, asked.count, filled, records);
    expect_roll_call(table, asked, asked.count + 1, filled, records);
    expect_roll_call(table, asked, asked.count + 100, filled, records);
    if (asked.count > 0) {
        expect_roll_call(table, asked, asked.count - 1, too_few_records, NULL);
        expect_roll_call(table, asked, 0, too_few_records, NULL);
    }
}

static void call(const char *what, struct bytes table, struct numbers asked, const struct station_line_leave *records) {
    begin_case(what);
    expect_records(table, asked, records);
}

/* "In that order, repeats included. An unknown number gets 11 in its own record only." */
static void call_example(void) {
    static const uint32_t asked[] = {9, 6, 5, 3, 5, 0, 7, 1000000, 3, UINT32_MAX, 999999, 9};
    uint8_t table[EXAMPLE];
    put_example(table);
    struct station_line_leave five = held_by(5);
    struct station_line_leave records[] = {five, absent, own_bag, five, own_bag, absent, five, absent, five, absent, absent, five};
    struct bytes four = {table, EXAMPLE};
    call("roll call: the example, with repeats and unknown numbers", four, ASKED(asked), records);
    begin_case("roll call: each of these questions in a call of its own");
    for (size_t k = 0; k < sizeof asked / sizeof asked[0]; k++)
        expect_records(four, (struct numbers){asked + k, 1}, records + k);
}

/* Nothing is asked, or of nobody. */
static void call_nobody(void) {
    static const uint32_t asked[] = {5, 0};
    static const struct station_line_leave records[] = {{11, 0, 0}, {11, 0, 0}};
    uint8_t table[EXAMPLE];
    put_example(table);
    struct numbers none = {asked, 0};
    call("roll call: no question", (struct bytes){table, EXAMPLE}, none, NULL);
    call("roll call: no question of the empty table", no_bytes, none, NULL);
    call("roll call: two questions of the empty table", no_bytes, ASKED(asked), records);
}

/* What mentions a station, and what does not: a removal mentions nobody, and its own bag not its station. */
static void call_mentioned(void) {
    static const uint32_t asked[] = {2, 4, 6, 8, 10};
    uint8_t table[5 * BLOCK];
    put_block(table, 10, 8, 0, 0);
    put_block(table + BLOCK, 8, 0, 0, 1);
    add_message(table + BLOCK, INTRODUCTION, 8);
    put_block(table + 2 * BLOCK, 6, 0, 8, 1);
    put_block(table + 3 * BLOCK, 4, 0, 10, 0);
    for (int k = 0; k < 31; k++)
        add_message(table + 3 * BLOCK, REMOVE_LEFT, 0);
    add_message(table + 3 * BLOCK, INTRODUCTION, 2);
    put_block(table + 4 * BLOCK, 2, 0, 0, 0);
    struct station_line_leave records[] = {held_by(4), own_bag, may_leave, own_bag, held_by(4)};
    struct bytes five = {table, sizeof table};
    call("roll call: a left, a right, the last place of a full bag, the own bag", five, ASKED(asked), records);
}

/* 64 stations stored by falling number. Each fourth one has a bag, with two introductions of the station above it, and the one below as its
 * left; the last one introduces 5 and 9 as well, which smaller ones hold. */
static void put_fourths(uint8_t *table) {
    for (uint32_t k = 1; k <= MOST; k++) {
        uint8_t *block = table + (size_t)BLOCK * (MOST - k);
        put_block(block, k, k % 4 == 0 ? k - 1 : 0, 0, 0);
        for (uint32_t copy = 0; k % 4 == 0 && copy < 2; copy++)
            add_message(block, INTRODUCTION, k == MOST ? 5 + 4 * copy : k + 1);
    }
}

static struct station_line_leave of_fourths(uint32_t k) {
    switch (k % 4) {
    case 0:
        return own_bag;
    case 1:
        return k == 1 ? may_leave : held_by(k - 1);
    case 2:
        return may_leave;
    default:
        return held_by(k + 1);
    }
}

/* 64 questions about 64 stations, in steps of 1, of 63, which is falling, and of 27, which is neither. */
static void call_most(void) {
    static uint8_t table[MOST * BLOCK];
    static const char *const names[] = {"roll call: 64 questions, rising", "roll call: 64 questions, falling",
                                        "roll call: 64 questions, mixed"};
    static const uint32_t paces[] = {1, 63, 27};
    uint32_t asked[MOST];
    struct station_line_leave records[MOST];
    put_fourths(table);
    for (size_t turn = 0; turn < 3; turn++) {
        for (uint32_t k = 0; k < MOST; k++) {
            asked[k] = 1 + k * paces[turn] % MOST;
            records[k] = of_fourths(asked[k]);
        }
        call(names[turn], (struct bytes){table, sizeof table}, ASKED(asked), records);
    }
    for (uint32_t k = 0; k < MOST; k++) {
        asked[k] = 33;
        records[k] = held_by(32);
    }
    call("roll call: 64 questions about one station", (struct bytes){table, sizeof table}, ASKED(asked), records);
}

/* "Then 17 for more than 64 questions, then 9." */
static void call_too_many(void) {
    static const size_t rooms[] = {0, 1, 64, 65, 66, 1100};
    static uint32_t asked[1000];
    uint8_t table[EXAMPLE];
    put_example(table);
    for (size_t k = 0; k < sizeof asked / sizeof asked[0]; k++)
        asked[k] = 3;
    begin_case("roll call: 65 questions, whatever the records");
    for (size_t k = 0; k < sizeof rooms / sizeof rooms[0]; k++)
        expect_roll_call((struct bytes){table, EXAMPLE}, (struct numbers){asked, 65}, rooms[k], too_many, NULL);
    begin_case("roll call: 1,000 questions, whatever the records");
    for (size_t k = 0; k < sizeof rooms / sizeof rooms[0]; k++)
        expect_roll_call((struct bytes){table, EXAMPLE}, ASKED(asked), rooms[k], too_many, NULL);
    begin_case("roll call: 65 questions of the empty table");
    expect_roll_call(no_bytes, (struct numbers){asked, 65}, 0, too_many, NULL);
}

void try_roll_call(void) {
    call_example();
    call_nobody();
    call_mentioned();
    call_most();
    call_too_many();
}
