/* How a fuzzer's input is cut into a call: 16 bytes of numbers, then the table, then the step list.
 *
 *   0-3 length of the table, 4-7 length of the step list, 8-11 length of the room, 12-15 station asked about, little-endian.
 *
 * Each length is cut down to what is there (the room's to the most allowed below), so that any bytes are an input. */
#ifndef FUZZ_CASE_H
#define FUZZ_CASE_H

#include <stddef.h>
#include <stdint.h>

#include "layout.h"

enum {
    HEAD = 16,
    MOST_TABLE = 66 * BLOCK,
    MOST_STEPS = 4098 * STEP,
    MOST_ROOM = 68 * BLOCK,
    MOST_LIST = 2112 * STEP,
    MOST_ASKED = 69,
    LARGEST = 999999,
    MOST_SITE = 9999
};

/* How often the runs of the inputs, the lists of allowed steps in the inputs' rooms, and the roll calls gave each answer; and how often the
 * leave question about the station of an accepted input, a run that stopped with 14, and the records of a roll call gave each reason. And
 * how many inputs had no site code, some, and one above the bound; and how many runs had the premises of each lasting fact. */
extern uint64_t answers_met[16], lists_met[10], lines_met[2], reasons_met[4], stops_met[4], calls_met[18], records_met[4], sites_met[3];
extern uint64_t lasting_met[2];

struct cut {
    const uint8_t *table, *steps;
    size_t table_len, steps_len, room_len;
    uint32_t station;
};

static inline size_t smaller(size_t a, size_t b)
{
    return a < b ? a : b;
}

static inline struct cut cut(const uint8_t *data, size_t size)
{
    static const uint8_t none[HEAD];
    const uint8_t *head = size < HEAD ? none : data;
    const uint8_t *body = size < HEAD ? none : data + HEAD;
    size_t rest = size < HEAD ? 0 : size - HEAD;
    struct cut c;
    c.table = body;
    c.table_len = smaller(smaller(get32(head), rest), MOST_TABLE);
    c.steps = body + c.table_len;
    c.steps_len = smaller(smaller(get32(head + 4), rest - c.table_len), MOST_STEPS);
    c.room_len = smaller(get32(head + 8), MOST_ROOM);
    c.station = get32(head + 12);
    return c;
}

#endif
