/* The library's view of a table, walked block by block without a copy (document 01, "The block"): over a table that isn't
 * accepted the check's number and no block, else the blocks in stored order and then the end. */
#ifndef WALK_H
#define WALK_H

#include <stddef.h>
#include <stdint.h>

struct walk {
    const uint8_t *table;
    size_t table_len, position;
};

/* The check's number: 0, or 1 to 7 for a walk that has no block. */
uint32_t walk_begin(struct walk *walk, const uint8_t *table, size_t table_len);

/* The next 512 bytes of the table, or null at the end. */
const uint8_t *walk_next(struct walk *walk);

#endif
