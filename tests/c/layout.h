/* Bytes of blocks and steps, laid out from document 01 ("The block", "The step list") and document 02 (T-05) alone. */
#ifndef LAYOUT_H
#define LAYOUT_H

#include <stddef.h>
#include <stdint.h>

enum { BLOCK = 512, STEP = 12 };

uint32_t get16(const uint8_t *at);
uint32_t get32(const uint8_t *at);
void put16(uint8_t *at, uint32_t value);
void put32(uint8_t *at, uint32_t value);

/* Sets the check word: the 256 words of a block add up to 65,535. */
void seal(uint8_t *block);

/* A whole block with an empty bag; a neighbour of 0 is none. */
void put_block(uint8_t *block, uint32_t station, uint32_t left, uint32_t right, int leaving);

/* One message more, behind those that the block has. */
void add_message(uint8_t *block, uint32_t kind, uint32_t number);

/* Another site code, which "stands in bytes 18-19" (document 02, T-05); put_block gives none. */
void put_site(uint8_t *block, uint32_t site);

void put_step(uint8_t *step, uint32_t action, uint32_t kind, uint32_t station, uint32_t number);

#endif
