/* The list of every step that may happen next: what stands in it and what does not, its order, and rooms too short, exact and longer.
 * Tables that are not accepted stand with the refusals. */
#include "calls.h"
#include "cases.h"
#include "tries.h"

enum { MOST = 2112 };

/* Steps put one behind the other. */
struct list {
    size_t count;
    uint8_t bytes[MOST * STEP];
};

static void add(struct list *list, uint32_t action, uint32_t kind, uint32_t station, uint32_t number) {
    put_step(list->bytes + STEP * list->count++, action, kind, station, number);
}

static struct bytes bytes_of(const struct list *list) {
    return (struct bytes){list->bytes, STEP * list->count};
}

/* The table of `len` bytes allows these steps and no others, whether the room is exact or longer; one byte less is too short. */
static void allow(const char *what, const uint8_t *table, size_t len, const struct list *list) {
    struct bytes before = {table, len}, steps = bytes_of(list);
    struct station_line_filled filled = {0, (uint32_t)list->count};
    begin_case(what);
    expect_allowed(before, steps.len, filled, steps);
    expect_allowed(before, steps.len + 1, filled, steps);
    expect_allowed(before, MOST * STEP + 700, filled, steps);
    if (steps.len > 0) {
        expect_allowed(before, steps.len - 1, (struct station_line_filled){9, 0}, no_bytes);
        expect_allowed(before, 0, (struct station_line_filled){9, 0}, no_bytes);
    }
}

static void allow_example(void) {
    uint8_t table[EXAMPLE];
    struct list list = {0};
    put_example(table);
    add(&list, TIMEOUT, 0, 3, 0);
    add(&list, TIMEOUT, 0, 5, 0);
    add(&list, DELIVER, INTRODUCTION, 5, 7);
    add(&list, TIMEOUT, 0, 7, 0);
    add(&list, TIMEOUT, 0, 9, 0);
    allow("allowed: the example", table, sizeof table, &list);
}

/* Blocks by falling number and messages in no order, with copies: each delivery stands there once, by kind and then by number. */
static void allow_in_order(void) {
    uint8_t table[2 * BLOCK];
    struct list list = {0};
    put_block(table, 700000, 0, 0, 1);
    add_message(table, REMOVE_RIGHT, 0);
    add_message(table, INTRODUCTION, 700000);
    add_message(table, REMOVE_LEFT, 0);
    add_message(table, INTRODUCTION, 5);
    add_message(table, REMOVE_RIGHT, 0);
    add_message(table, INTRODUCTION, 700000);
    put_block(table + BLOCK, 5, 0, 0, 0);
    add(&list, TIMEOUT, 0, 5, 0);
    add(&list, TIMEOUT, 0, 700000, 0);
    add(&list, DELIVER, INTRODUCTION, 700000, 5);
    add(&list, DELIVER, INTRODUCTION, 700000, 700000);
    add(&list, DELIVER, REMOVE_LEFT, 700000, 0);
    add(&list, DELIVER, REMOVE_RIGHT, 700000, 0);
    allow("allowed: each step once, in the list's own order", table, sizeof table, &list);
}

/* 5 may exit between 3 and 9 as long as both can receive; 3 is leaving too, but 5 names it. */
static void allow_exits(void) {
    uint8_t table[3 * BLOCK];
    struct list all = {0}, few = {0};
    put_block(table, 3, 0, 0, 1);
    put_block(table + BLOCK, 5, 3, 9, 1);
    put_block(table + 2 * BLOCK, 9, 0, 0, 0);
    for (int k = 0; k < 31; k++)
        add_message(table + 2 * BLOCK, REMOVE_LEFT, 0);
    add(&all, TIMEOUT, 0, 3, 0);
    add(&all, TIMEOUT, 0, 5, 0);
    add(&all, EXIT, 0, 5, 0);
    add(&all, TIMEOUT, 0, 9, 0);
    add(&all, DELIVER, REMOVE_LEFT, 9, 0);
    allow("allowed: an exit, with 31 in the receiver's bag", table, sizeof table, &all);
    add_message(table + 2 * BLOCK, REMOVE_LEFT, 0);
    add(&few, TIMEOUT, 0, 3, 0);
    add(&few, TIMEOUT, 0, 9, 0);
    add(&few, DELIVER, REMOVE_LEFT, 9, 0);
    allow("allowed: neither exit nor timeout, with 32", table, sizeof table, &few);
}

static void allow_nothing(void) {
    uint8_t table[2 * BLOCK];
    struct list none = {0};
    allow("allowed: nothing of the empty table", no_bytes.at, 0, &none);
    begin_case("allowed: nothing at all");
    expect_allowed(no_bytes, 0, (struct station_line_filled){0, 0}, no_bytes);
    put_block(table, 3, 0, 5, 0);
    put_block(table + BLOCK, 5, 3, 0, 0);
    for (int k = 0; k < 32; k++) {
        add_message(table, REMOVE_RIGHT, 0);
        add_message(table + BLOCK, REMOVE_LEFT, 0);
    }
    allow("allowed: nothing where every step would send to a full bag", table, sizeof table, &none);
}

/* 64 stations without neighbours, each with the introductions of 1 to 32: a timeout and 32 deliveries each. */
static void allow_most(void) {
    static uint8_t table[64 * BLOCK];
    static struct list list;
    for (uint32_t k = 0; k < 64; k++) {
        put_block(table + BLOCK * k, k + 1, 0, 0, 0);
        add(&list, TIMEOUT, 0, k + 1, 0);
        for (uint32_t other = 1; other <= 32; other++) {
            add_message(table + BLOCK * k, INTRODUCTION, other);
            add(&list, DELIVER, INTRODUCTION, k + 1, other);
        }
    }
    allow("allowed: 2,112 steps", table, sizeof table, &list);
}

void try_allowed(void) {
    allow_example();
    allow_in_order();
    allow_exits();
    allow_nothing();
    allow_most();
}
