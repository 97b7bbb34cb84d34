/* The view gives the blocks in stored order, then the end however often it is asked, and no block of a table that is not accepted. */
#include "calls.h"
#include "cases.h"
#include "tries.h"

static struct station_line_viewed block_at(size_t k) {
    return (struct station_line_viewed){0, 1, BLOCK * k, k + 1};
}

static struct station_line_viewed end_at(uint32_t answer, size_t position) {
    return (struct station_line_viewed){answer, 0, 0, position};
}

/* Positions at which there is never a block, one of them 2 to the power of 55, which times 512 is 0 in 64 bits. */
static const size_t far[] = {64, 65, (size_t)1 << 55, SIZE_MAX / BLOCK, SIZE_MAX};

static void expect_far(struct bytes table, uint32_t answer) {
    for (size_t k = 0; k < sizeof far / sizeof far[0]; k++)
        expect_view(table, far[k], end_at(answer, far[k]));
}

void try_views(void) {
    static uint8_t table[64 * BLOCK];
    put_example(table);
    struct bytes four = {table, EXAMPLE};
    begin_case("the view of the example: four blocks, then the end");
    for (size_t k = 0; k < 4; k++)
        expect_view(four, k, block_at(k));
    expect_view(four, 4, end_at(0, 4));
    expect_view(four, 5, end_at(0, 5));
    begin_case("the view of the example, far away");
    expect_far(four, 0);
    begin_case("the view of the empty table");
    expect_view(no_bytes, 0, end_at(0, 0));
    expect_far(no_bytes, 0);
    table[300] = 1;
    begin_case("the view of a table that is not accepted");
    for (size_t k = 0; k < 5; k++)
        expect_view(four, k, end_at(3, k));
    expect_far(four, 3);
    for (uint32_t k = 0; k < 64; k++)
        put_block(table + BLOCK * k, 64 - k, 0, 0, 0);
    begin_case("the view of 64 blocks, falling");
    for (size_t k = 0; k < 64; k++)
        expect_view((struct bytes){table, sizeof table}, k, block_at(k));
    expect_far((struct bytes){table, sizeof table}, 0);
}
