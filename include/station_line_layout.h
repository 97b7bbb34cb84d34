/* One block and one step of the station line, taken apart and put together in plain C (docs/FORMAT.md has every byte).
 *
 * Any bytes may be read: the fields are what the bytes say, good or not. Which tables and step lists are good is for the library
 * to say (station_line.h); these functions are not proved and need no library.
 */
#ifndef STATION_LINE_LAYOUT_H
#define STATION_LINE_LAYOUT_H

#include <stddef.h>
#include <stdint.h>

#include "station_line.h"

#ifdef __cplusplus
extern "C" {
#endif

/* Bit 0 of a block's flags. */
enum { STATION_LINE_LEAVING = 1 };

/* Kinds of messages. An introduction has the number of a station; the other two have 0. */
enum { STATION_LINE_INTRODUCTION = 1, STATION_LINE_REMOVE_LEFT = 2, STATION_LINE_REMOVE_RIGHT = 3 };

/* Actions of steps. */
enum { STATION_LINE_TIMEOUT = 1, STATION_LINE_DELIVER = 2, STATION_LINE_EXIT = 3 };

/* A message place; `gap` is the two bytes between kind and number, 0 in a good block. */
struct station_line_message {
    uint16_t kind, gap;
    uint32_t number;
};

/* The fields of a block. A left or right of 0 is none, and so is a site of 0. The messages are the first `count` of the places; `count`
 * is at most 32 in a good block, and may be up to 65,535 in another, as `site` is at most 9,999 in a good one. Before version 2.3 bytes
 * 18 and 19 were 0 in every good block, and the field was named `reserved`. */
struct station_line_block {
    uint16_t layout, flags;
    uint32_t station, left, right;
    uint16_t count, site;
    struct station_line_message messages[STATION_LINE_MOST_MESSAGES];
    uint16_t check;
};

/* The fields of a step. A timeout and an exit have 0 for kind and number. */
struct station_line_step {
    uint16_t action, kind;
    uint32_t station, number;
};

static inline uint16_t station_line_get16(const uint8_t *at) {
    return (uint16_t)(at[0] | (unsigned)at[1] << 8);
}

static inline uint32_t station_line_get32(const uint8_t *at) {
    return station_line_get16(at) | (uint32_t)station_line_get16(at + 2) << 16;
}

static inline void station_line_put16(uint8_t *at, uint16_t value) {
    at[0] = (uint8_t)(value & 255u);
    at[1] = (uint8_t)(value >> 8);
}

static inline void station_line_put32(uint8_t *at, uint32_t value) {
    station_line_put16(at, (uint16_t)(value & 65535u));
    station_line_put16(at + 2, (uint16_t)(value >> 16));
}

/* The check word that these 512 bytes should have: the 256 words of 16 bits, added with wrap at 65,536, give 65,535. */
static inline uint16_t station_line_check_word(const uint8_t *bytes) {
    uint32_t sum = 0;
    size_t i;
    for (i = 0; i < 510; i += 2)
        sum += station_line_get16(bytes + i);
    return (uint16_t)((65535u - sum) & 65535u);
}

/* The places that may be looked at: `count`, but never more than there are. */
static inline size_t station_line_bag_size(const struct station_line_block *block) {
    return block->count < STATION_LINE_MOST_MESSAGES ? block->count : (size_t)STATION_LINE_MOST_MESSAGES;
}

/* The fields of 512 bytes; of a place past the count too. Bytes 276 to 509 stand in no field and are 0 in a good block. */
static inline void station_line_read_block(const uint8_t *bytes, struct station_line_block *block) {
    size_t k;
    block->layout = station_line_get16(bytes);
    block->flags = station_line_get16(bytes + 2);
    block->station = station_line_get32(bytes + 4);
    block->left = station_line_get32(bytes + 8);
    block->right = station_line_get32(bytes + 12);
    block->count = station_line_get16(bytes + 16);
    block->site = station_line_get16(bytes + 18);
    for (k = 0; k < STATION_LINE_MOST_MESSAGES; k++) {
        block->messages[k].kind = station_line_get16(bytes + 20 + 8 * k);
        block->messages[k].gap = station_line_get16(bytes + 22 + 8 * k);
        block->messages[k].number = station_line_get32(bytes + 24 + 8 * k);
    }
    block->check = station_line_get16(bytes + 510);
}

/* All 512 bytes: the fields, the messages up to the count and zeros behind them, and the check word that makes it right, whatever
 * `check` says. */
static inline void station_line_write_block(uint8_t *bytes, const struct station_line_block *block) {
    size_t k;
    for (k = 0; k < STATION_LINE_BLOCK_BYTES; k++)
        bytes[k] = 0;
    station_line_put16(bytes, block->layout);
    station_line_put16(bytes + 2, block->flags);
    station_line_put32(bytes + 4, block->station);
    station_line_put32(bytes + 8, block->left);
    station_line_put32(bytes + 12, block->right);
    station_line_put16(bytes + 16, block->count);
    station_line_put16(bytes + 18, block->site);
    for (k = 0; k < station_line_bag_size(block); k++) {
        station_line_put16(bytes + 20 + 8 * k, block->messages[k].kind);
        station_line_put16(bytes + 22 + 8 * k, block->messages[k].gap);
        station_line_put32(bytes + 24 + 8 * k, block->messages[k].number);
    }
    station_line_put16(bytes + 510, station_line_check_word(bytes));
}

/* The fields of 12 bytes. */
static inline struct station_line_step station_line_read_step(const uint8_t *bytes) {
    struct station_line_step step;
    step.action = station_line_get16(bytes);
    step.kind = station_line_get16(bytes + 2);
    step.station = station_line_get32(bytes + 4);
    step.number = station_line_get32(bytes + 8);
    return step;
}

/* All 12 bytes. */
static inline void station_line_write_step(uint8_t *bytes, struct station_line_step step) {
    station_line_put16(bytes, step.action);
    station_line_put16(bytes + 2, step.kind);
    station_line_put32(bytes + 4, step.station);
    station_line_put32(bytes + 8, step.number);
}

#ifdef __cplusplus
}
#endif

#endif
