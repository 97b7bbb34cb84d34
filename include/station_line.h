/* The station line: checks a table of ground stations, runs a step list over it, lists what may happen next, and answers two
 * questions about it, one of them also of many stations in one call.
 *
 * Every function takes any bytes and any numbers, ends, and gives the answer fixed for its input; none keeps anything between
 * calls, allocates, or reads or writes anything but what it is handed. They may be called from several threads at once.
 *
 * What the caller owes: each pointer is valid for the length given with it (it may be null where that length is 0), and `room` or
 * `records` does not overlap anything else that is handed over.
 *
 * A table is a run of 512-byte blocks, one per station, at most 64 of them. A step list is a run of 12-byte steps, at most 4,096
 * of them. A block may have a site code, 1 to 9,999: every step carries it unchanged, and nothing else looks at it (since version 2.3;
 * before, its two bytes were 0). Integers are little-endian. docs/FORMAT.md has every byte; station_line_layout.h takes a block or a
 * step apart and puts it together.
 */
#ifndef STATION_LINE_H
#define STATION_LINE_H

#include <stddef.h>
#include <stdint.h>

#ifdef __cplusplus
extern "C" {
#endif

/* The version of this header; station_line_version() has that of the library that is linked. */
#define STATION_LINE_VERSION_MAJOR 2
#define STATION_LINE_VERSION_MINOR 3
#define STATION_LINE_VERSION "2.3"

/* Sizes. */
#define STATION_LINE_BLOCK_BYTES 512
#define STATION_LINE_STEP_BYTES 12
#define STATION_LINE_MOST_STATIONS 64
#define STATION_LINE_MOST_MESSAGES 32 /* in one bag */
#define STATION_LINE_MOST_STEPS 4096
#define STATION_LINE_MOST_NUMBER 999999 /* of a station; the least is 1 */
#define STATION_LINE_MOST_SITE 9999 /* of a site code; 0 is none */
#define STATION_LINE_TABLE_BYTES 32768 /* the longest table, and room for what a run writes of any */
#define STATION_LINE_STEPS_BYTES 49152 /* the longest step list */
#define STATION_LINE_MOST_ALLOWED 2112 /* steps that may happen next: a timeout and 32 deliveries for each of 64 stations */
#define STATION_LINE_ALLOWED_BYTES 25344 /* room for the list of these steps, of any table */
#define STATION_LINE_MOST_QUESTIONS 64 /* stations asked about in one roll call */

/* The numbers. Where several apply, the smallest is given, whatever the order of the blocks; only 17 is told before 9. 16 is left to
 * programs that read files. */
enum {
    STATION_LINE_DONE = 0,            /* no refusal */
    STATION_LINE_TABLE_LENGTH = 1,    /* table length not a multiple of 512 */
    STATION_LINE_BLOCKS = 2,          /* more than 64 blocks */
    STATION_LINE_CHECK_WORD = 3,      /* a check fails */
    STATION_LINE_FIELD = 4,           /* a field outside the layout */
    STATION_LINE_SIDES = 5,           /* a left not below its own station, or a right not above it */
    STATION_LINE_TWICE = 6,           /* two blocks with one station number */
    STATION_LINE_UNKNOWN = 7,         /* a neighbour or introduction names a station without a block */
    STATION_LINE_LIST_LENGTH = 8,     /* step list not a multiple of 12 bytes, or over 4,096 steps */
    STATION_LINE_ROOM = 9,            /* room shorter than the table read, or than the list that would fill it */
    STATION_LINE_MALFORMED = 10,      /* malformed step */
    STATION_LINE_ABSENT = 11,         /* station not present */
    STATION_LINE_NOT_IN_BAG = 12,     /* message not in that bag */
    STATION_LINE_STAYING = 13,        /* exit by a staying station */
    STATION_LINE_HELD = 14,           /* exit, leaving, NIDEC false */
    STATION_LINE_FULL = 15,           /* a bag that must receive holds 32 */
    STATION_LINE_TOO_MANY = 17        /* more than 64 stations asked */
};

/* Reasons: what the leave question finds, and at 2 and 3 why a run stops with 14. The bag is looked at first, so 2 is given
 * wherever it is not empty, whoever else holds the station. */
enum {
    STATION_LINE_NO_REASON = 0, /* there is none to give */
    STATION_LINE_MAY_LEAVE = 1, /* it may leave */
    STATION_LINE_OWN_BAG = 2,   /* own bag not empty */
    STATION_LINE_HELD_BY = 3    /* another station has it as a neighbour or as an introduction in its bag */
};

/* What a run returns: its number, the steps done before the first refused one, and the stations now. At 14 reason is 2 or 3: why
 * the station of the refused step may not leave, as station_line_may_leave() tells of the table written; at every other number
 * reason is 0. Where reason is 3, holder is the smallest station that holds it; else holder is 0. */
struct station_line_ran {
    uint32_t answer, done, stations, reason, holder;
};

/* What a call that fills a list returns: its number and, where that is 0, the steps or records filled. Beside any other number filled
 * is 0. */
struct station_line_filled {
    uint32_t answer, filled;
};

/* What the leave question returns, and a record of a roll call: its number and, where that is 0, reason 1, 2 or 3; beside any other
 * number reason is 0. Where reason is 3, holder is the smallest station that holds the one asked about, whatever the order of the
 * blocks; else holder is 0. */
struct station_line_leave {
    uint32_t answer, reason, holder;
};

/* What the line question returns: its number and, where that is 0, yes (1) or no (0). Beside any other number yes is 0. */
struct station_line_told {
    uint32_t answer, yes;
};

/* What a view gives at a position: the check's number, whether there is a block there (1) or not (0), the offset of its 512 bytes in
 * the table, and the next position. */
struct station_line_viewed {
    uint32_t answer, has_block;
    size_t offset, next;
};

/* Whether a table is accepted: 0, or 1 to 7. */
uint32_t station_line_check(const uint8_t *table, size_t table_len);

/* Runs the step list over the table and writes the new table to the room.
 *
 * 1 to 9: nothing was run; done and stations are 0 and the whole room is as it was.
 * 0: every step was done. 10 to 15: the run stopped at the first refused step, which changed nothing. In both cases the table
 * after the steps done stands at the beginning of the room, 512 bytes for each of the stations now, blocks by rising station
 * number and messages by kind and then by number; the bytes of the room past it are as they were. */
struct station_line_ran station_line_run(const uint8_t *table, size_t table_len, const uint8_t *steps, size_t steps_len,
                                         uint8_t *room, size_t room_len);

/* Lists every step that a run would accept as its first step from the table: by rising station number, and within a station the
 * timeout, then the deliveries by kind and then by number, then the exit. Each stands there once, so copies of a message make one
 * delivery. The list has at most 2,112 steps and is a step list as station_line_run() takes it.
 *
 * 1 to 7 of the table, or 9, exactly when the room is shorter than the list: filled is 0 and the whole room is as it was.
 * 0: the list stands at the beginning of the room, 12 bytes for each of the filled steps; the bytes of the room past it are as
 * they were. */
struct station_line_filled station_line_allowed(const uint8_t *table, size_t table_len, uint8_t *room, size_t room_len);

/* Whether NIDEC holds for a station, leaving mark or not: its bag is empty and no other station has it as a neighbour or as an
 * introduction in its bag; and if not, why not. Once it holds, it still holds after every run answered 0 with no step at that station.
 * 1 to 7 of the table, 11 where no block has that number, or 0 with the reason. */
struct station_line_leave station_line_may_leave(const uint8_t *table, size_t table_len, uint32_t station);

/* The roll call: the leave question about up to 64 stations at once, in the order given, repeats included. stations_len counts
 * numbers and records_len records, not bytes.
 *
 * 1 to 7 of the table, then 17 for more than 64 stations, then 9 exactly when there are fewer records than stations: filled is 0 and
 * every record is as it was.
 * 0: filled is stations_len, and record k is what station_line_may_leave() tells of stations[k]; so a number without a block has 11
 * in its own record, and the others are answered. The records past these are as they were. */
struct station_line_filled station_line_roll_call(const uint8_t *table, size_t table_len, const uint32_t *stations, size_t stations_len,
                                                  struct station_line_leave *records, size_t records_len);

/* Whether the table is in line, and so stays in line: each station's left is the next smaller station present, none for the smallest,
 * and likewise its right; no bag holds a remove-left or remove-right; and no station is leaving. Introductions may wait: none of them
 * can change a neighbour in such a table, and after every run answered 0 it is in line again. 1 to 7 of the table, or 0 with yes or no.
 * The empty table is in line. Before version 2.2 the neighbours alone decided. */
struct station_line_told station_line_in_line(const uint8_t *table, size_t table_len);

/* The table block by block: begin at position 0, go on at next. Position p of an accepted table with more than p blocks is its block
 * p in stored order, the 512 bytes at table + offset; offset is 512 p and next is p + 1. At any other position, and at every position
 * of a table that is not accepted, there is no block: offset is 0 and next is that position, so the end comes again however often it
 * is asked. Each call checks the table. */
struct station_line_viewed station_line_view(const uint8_t *table, size_t table_len, size_t position);

/* Beside the functions above, which are proved, two of plain C. */

/* The words for a number, as for 3 "a check fails"; they stay as long as the program runs. 16, which a program may give for a file that
 * can't be read, has words too; a number without a meaning has words that say so. */
const char *station_line_words(uint32_t number);

/* The version of the library, as "2.3". */
const char *station_line_version(void);

#ifdef __cplusplus
}
#endif

#endif
