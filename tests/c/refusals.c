/* 1 to 9: no counts, no reason, and the whole room as it was. */
#include "calls.h"
#include "cases.h"
#include "tries.h"

static void refuse(const char *what, uint32_t number, struct bytes table, struct bytes steps, size_t room_len) {
    begin_case(what);
    expect_run(table, steps, room_len, (struct station_line_ran){number, 0, 0, 0, 0}, no_bytes);
}

/* The table's number comes before 17 and 9, and no question has to be asked for it. */
static void refuse_roll_calls(struct bytes table, uint32_t number) {
    static uint32_t asked[65];
    struct station_line_filled wanted = {number, 0};
    expect_roll_call(table, (struct numbers){asked, 0}, 0, wanted, NULL);
    expect_roll_call(table, (struct numbers){asked, 1}, 1, wanted, NULL);
    expect_roll_call(table, (struct numbers){asked, 64}, 63, wanted, NULL);
    expect_roll_call(table, (struct numbers){asked, 65}, 65, wanted, NULL);
    expect_roll_call(table, (struct numbers){asked, 65}, 0, wanted, NULL);
}

/* 1 to 7 are told by every function. */
static void refuse_table(const char *what, uint32_t number, const uint8_t *at, size_t len, size_t room_len) {
    struct bytes table = {at, len};
    refuse(what, number, table, no_bytes, room_len);
    expect_allowed(table, room_len, (struct station_line_filled){number, 0}, no_bytes);
    expect_allowed(table, 0, (struct station_line_filled){number, 0}, no_bytes);
    expect_check(table, number);
    expect_leave(table, 5, (struct station_line_leave){number, 0, 0});
    refuse_roll_calls(table, number);
    expect_line(table, number, 0);
    expect_view(table, 0, (struct station_line_viewed){number, 0, 0, 0});
}

static void try_tables(void) {
    static uint8_t table[65 * BLOCK];
    put_example(table);
    refuse_table("1: 2,047 bytes", 1, table, EXAMPLE - 1, EXAMPLE);
    refuse_table("1: one byte", 1, table, 1, EXAMPLE);
    table[300] = 1;
    refuse_table("3: a byte changed", 3, table, EXAMPLE, EXAMPLE);
    put_example(table);
    put_site(table, 10000);
    refuse_table("4: a site code of 10,000", 4, table, EXAMPLE, EXAMPLE);
    put_site(table, 9999);
    put_site(table + 3 * BLOCK, 65535);
    refuse_table("4: a site code of 65,535, behind one of 9,999", 4, table, EXAMPLE, EXAMPLE);
    put_example(table);
    put_block(table, 3, 5, 0, 0);
    refuse_table("5: a left above its station", 5, table, EXAMPLE, EXAMPLE);
    put_block(table, 5, 0, 0, 0);
    refuse_table("6: a station twice", 6, table, EXAMPLE, EXAMPLE);
    put_block(table, 3, 0, 6, 0);
    refuse_table("7: a right without a block", 7, table, EXAMPLE, EXAMPLE);
    for (uint32_t k = 0; k < 65; k++)
        put_block(table + BLOCK * k, k + 1, 0, 0, 0);
    refuse_table("2: 65 blocks", 2, table, sizeof table, sizeof table + BLOCK);
}

static void try_lists_and_rooms(void) {
    static uint8_t table[EXAMPLE], steps[4097 * STEP];
    put_example(table);
    for (uint32_t k = 0; k < 4097; k++)
        put_step(steps + STEP * k, TIMEOUT, 0, 7, 0);
    struct bytes four = {table, EXAMPLE}, one = {steps, STEP};
    refuse("8: 13 bytes", 8, four, (struct bytes){steps, 13}, EXAMPLE);
    refuse("8: 4,097 steps", 8, four, (struct bytes){steps, sizeof steps}, EXAMPLE);
    refuse("9: a room one byte short", 9, four, one, EXAMPLE - 1);
    refuse("9: no room", 9, four, one, 0);
    refuse("8 before 9", 8, four, (struct bytes){steps, 11}, 0);
    table[300] = 1;
    refuse("3 before 8 and 9", 3, four, (struct bytes){steps, 11}, 0);
}

void try_refusals(void) {
    try_tables();
    try_lists_and_rooms();
}
