#include "damaged.h"

#include <stdio.h>
#include <stdlib.h>

#include "faults.h"
#include "files.h"
#include "listing.h"
#include "say.h"

#define ROW ((size_t)16)

/* Bytes in rows; a row of zeros is left out where `all` is false. */
static void print_rows(const uint8_t *bytes, size_t from, size_t end, bool all) {
    for (size_t row = from; row < end; row += ROW) {
        size_t last = row + ROW < end ? row + ROW : end;
        bool zero = true;
        for (size_t at = row; at < last; at++)
            zero = zero && bytes[at] == 0;
        if (zero && !all)
            continue;
        (void)printf("# %zu:", row);
        for (size_t at = row; at < last; at++)
            (void)printf(" %02x", (unsigned)bytes[at]);
        (void)putchar('\n');
    }
}

static void print_place(void *context, const struct place *place) {
    (void)context;
    (void)printf("# %u: %s\n", (unsigned)place->number, place->words);
}

static void print_damaged(const uint8_t *bytes, size_t len, size_t block) {
    size_t start = STATION_LINE_BLOCK_BYTES * block;
    struct station_line_block fields;
    station_line_read_block(bytes + start, &fields);
    (void)printf("# block %zu at %zu\n", block + 1, start);
    for (uint32_t number = FIRST_FAULT; number <= LAST_FAULT; number++)
        find_in_block(bytes, len, block, number, print_place, NULL);
    print_rows(bytes, start + 20 + 8 * station_line_bag_size(&fields), start + 510, false);
    print_station(stdout, &fields);
}

static int print_all(const char *name, const uint8_t *bytes, size_t len) {
    size_t blocks = len / STATION_LINE_BLOCK_BYTES, whole = STATION_LINE_BLOCK_BYTES * blocks;
    for (size_t block = 0; block < blocks; block++)
        print_damaged(bytes, len, block);
    if (whole < len) {
        (void)printf("# %zu bytes at %zu that are no block\n", len - whole, whole);
        print_rows(bytes, whole, len, true);
    }
    uint32_t number = station_line_check(bytes, len);
    if (number == STATION_LINE_DONE)
        return DONE;
    say_refusal(name, number);
    return OTHER;
}

/* A file that is too long for a table can be looked into as well. */
int dump_damaged(const char *path) {
    struct reason why;
    size_t len;
    uint8_t *bytes = malloc(TEXT_BYTES + 1);
    if (bytes == NULL) {
        say_trouble(name_of(path), "no memory is left");
        return TROUBLE;
    }
    bool read = read_text(path, bytes, &len, &why);
    if (!read)
        say_unreadable(name_of(path), why);
    int status = read ? print_all(name_of(path), bytes, len) : TROUBLE;
    free(bytes);
    return status;
}
