/* Where in a table a fault of number 3 to 7 stands: the block, the station and the field. Which number a table has is for the
 * library to say; here only the places are looked for, in any bytes. */
#ifndef FAULTS_H
#define FAULTS_H

#include <stddef.h>
#include <stdint.h>

/* The first number that has a place in a block, and the last. */
enum { FIRST_FAULT = 3, LAST_FAULT = 7 };

struct place {
    uint32_t number;  /* of the fault */
    size_t block;     /* in which block, counted from 0 */
    uint32_t station; /* as the block says it */
    char words[128];  /* the field, where it stands, what it is and what it should be */
};

/* Takes one place; `context` is handed on. */
typedef void place_taker(void *context, const struct place *place);

/* Gives every place of that number in one whole block, field by field. */
void find_in_block(const uint8_t *table, size_t len, size_t block, uint32_t number, place_taker *take, void *context);

/* The same in every whole block, in stored order. */
void find_places(const uint8_t *table, size_t len, uint32_t number, place_taker *take, void *context);

#endif
