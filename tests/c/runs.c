/* Runs that are done: the example of document 01, rooms exact and longer, the smallest and the largest sizes. */
#include <string.h>

#include "calls.h"
#include "cases.h"
#include "tries.h"

void put_example(uint8_t *table) {
    put_block(table, 3, 0, 5, 0);
    put_block(table + BLOCK, 5, 3, 9, 0);
    add_message(table + BLOCK, INTRODUCTION, 7);
    put_block(table + 2 * BLOCK, 7, 0, 0, 0);
    put_block(table + 3 * BLOCK, 9, 5, 0, 0);
}

/* A run that does every step has no reason. */
static struct station_line_ran done_all(uint32_t steps, uint32_t stations) {
    return (struct station_line_ran){0, steps, stations, 0, 0};
}

/* "and the one step 'deliver to 5 introduction 7'" */
static void try_example(void) {
    uint8_t table[EXAMPLE], after[EXAMPLE], turned[EXAMPLE], step[STEP];
    put_example(table);
    put_block(after, 3, 0, 5, 0);
    put_block(after + BLOCK, 5, 3, 7, 0);
    put_block(after + 2 * BLOCK, 7, 0, 0, 0);
    add_message(after + 2 * BLOCK, INTRODUCTION, 9);
    put_block(after + 3 * BLOCK, 9, 5, 0, 0);
    put_step(step, DELIVER, INTRODUCTION, 5, 7);
    for (size_t i = 0; i < 4; i++)
        memcpy(turned + i * BLOCK, table + (3 - i) * BLOCK, BLOCK);
    struct bytes before = {table, EXAMPLE}, list = {step, STEP}, written = {after, EXAMPLE};
    struct station_line_ran done = done_all(1, 4);

    begin_case("the example is accepted");
    expect_check(before, 0);
    begin_case("the example, room exact");
    expect_run(before, list, EXAMPLE, done, written);
    begin_case("the example, room longer");
    expect_run(before, list, EXAMPLE + 700, done, written);
    begin_case("the example, blocks in another order");
    expect_run((struct bytes){turned, EXAMPLE}, list, EXAMPLE, done, written);
    begin_case("the example, no step");
    expect_run(before, no_bytes, EXAMPLE, done_all(0, 4), before);
}

/* "A table of 64 blocks is read"; "an empty table with an empty list answers 0, 0, 0"; situation 13. */
static void try_sizes(void) {
    static uint8_t table[64 * BLOCK], steps[4096 * STEP];
    begin_case("nothing at all");
    expect_run(no_bytes, no_bytes, 0, done_all(0, 0), no_bytes);
    begin_case("nothing, with a room");
    expect_run(no_bytes, no_bytes, 64, done_all(0, 0), no_bytes);

    for (uint32_t k = 0; k < 64; k++)
        put_block(table + BLOCK * k, k + 1, 0, 0, 0);
    for (uint32_t k = 0; k < 4096; k++)
        put_step(steps + STEP * k, TIMEOUT, 0, 7, 0);
    begin_case("64 blocks and 4,096 steps");
    expect_run((struct bytes){table, sizeof table}, (struct bytes){steps, sizeof steps}, sizeof table,
               done_all(4096, 64), (struct bytes){table, sizeof table});

    put_block(table, 5, 0, 0, 1);
    put_step(steps, EXIT, 0, 5, 0);
    begin_case("a sole leaving station exits");
    expect_run((struct bytes){table, BLOCK}, (struct bytes){steps, STEP}, BLOCK, done_all(1, 0), no_bytes);
}

void try_runs(void) {
    try_example();
    try_sizes();
}
