#include "layout.h"

#include <string.h>

uint32_t get16(const uint8_t *at) {
    return at[0] | (uint32_t)at[1] << 8;
}

uint32_t get32(const uint8_t *at) {
    return get16(at) | get16(at + 2) << 16;
}

void put16(uint8_t *at, uint32_t value) {
    at[0] = (uint8_t)value;
    at[1] = (uint8_t)(value >> 8);
}

void put32(uint8_t *at, uint32_t value) {
    put16(at, value);
    put16(at + 2, value >> 16);
}

void seal(uint8_t *block) {
    uint32_t sum = 0;
    for (int i = 0; i < BLOCK - 2; i += 2)
        sum += get16(block + i);
    put16(block + BLOCK - 2, 65535 - (sum & 65535));
}

void put_block(uint8_t *block, uint32_t station, uint32_t left, uint32_t right, int leaving) {
    memset(block, 0, BLOCK);
    put16(block, 1);
    put16(block + 2, leaving ? 1 : 0);
    put32(block + 4, station);
    put32(block + 8, left);
    put32(block + 12, right);
    seal(block);
}

void add_message(uint8_t *block, uint32_t kind, uint32_t number) {
    uint32_t count = get16(block + 16);
    put16(block + 20 + 8 * count, kind);
    put32(block + 24 + 8 * count, number);
    put16(block + 16, count + 1);
    seal(block);
}

void put_site(uint8_t *block, uint32_t site) {
    put16(block + 18, site);
    seal(block);
}

void put_step(uint8_t *step, uint32_t action, uint32_t kind, uint32_t station, uint32_t number) {
    put16(step, action);
    put16(step + 2, kind);
    put32(step + 4, station);
    put32(step + 8, number);
}
