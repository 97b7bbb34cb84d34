/* A stand-in for the archive that is wrong in one way, to show that the test sees it. The linker hands it every call of the test (ld's
 * --wrap); it lets the archive answer, so that the answers and the table written are right, and then touches one byte that it may not.
 *
 * The way is said by the environment's WRONG, four words: the function (check, run, allowed, leave, roll, line, view), what it was handed
 * (table, list, room), read or write, and where: before it, behind it, or inside (a byte of a table or a list, or of a room past the
 * table or the list written). The questions of a roll call are its list, and its records the room. "stale" and run, leave or roll is one
 * that gives an earlier reason again where there is none to give. "ends" is a program that dies after its last line. What else a roll call
 * and the line question may do wrong is in roll_call.c and in_line.c, and what may be wrong with site codes in sites.c. Without WRONG
 * nothing is wrong. */
#include "touch.h"

#include <stdio.h>
#include <stdlib.h>
#include <string.h>

#include "sites.h"
#include "station_line.h"

uint32_t __real_station_line_check(const uint8_t *table, size_t table_len);
struct station_line_ran __real_station_line_run(const uint8_t *table, size_t table_len, const uint8_t *steps, size_t steps_len,
                                                uint8_t *room, size_t room_len);
struct station_line_filled __real_station_line_allowed(const uint8_t *table, size_t table_len, uint8_t *room, size_t room_len);
struct station_line_leave __real_station_line_may_leave(const uint8_t *table, size_t table_len, uint32_t station);
struct station_line_viewed __real_station_line_view(const uint8_t *table, size_t table_len, size_t position);

uint32_t __wrap_station_line_check(const uint8_t *table, size_t table_len);
struct station_line_ran __wrap_station_line_run(const uint8_t *table, size_t table_len, const uint8_t *steps, size_t steps_len,
                                                uint8_t *room, size_t room_len);
struct station_line_filled __wrap_station_line_allowed(const uint8_t *table, size_t table_len, uint8_t *room, size_t room_len);
struct station_line_leave __wrap_station_line_may_leave(const uint8_t *table, size_t table_len, uint32_t station);
struct station_line_viewed __wrap_station_line_view(const uint8_t *table, size_t table_len, size_t position);

static void die(void) {
    (void)fflush(stdout);
    _Exit(9);
}

void touch(const char *function, const char *what, const uint8_t *at, size_t len, size_t inside) {
    const char *wrong = getenv("WRONG");
    char first[8], second[8], how[8], where[8];
    if (!wrong || !at || sscanf(wrong, "%7s %7s %7s %7s", first, second, how, where) != 4)
        return;
    if (strcmp(first, function) != 0 || strcmp(second, what) != 0 || (strcmp(where, "inside") == 0 && inside >= len))
        return;
    uintptr_t place = (uintptr_t)at + (strcmp(where, "behind") == 0 ? len : inside);
    if (strcmp(where, "before") == 0)
        place = (uintptr_t)at - 1;
    volatile uint8_t *byte = (volatile uint8_t *)place;
    if (strcmp(how, "write") == 0)
        *byte = 0;
    else
        (void)*byte;
}

void keep_reason(const char *function, uint32_t *reason, uint32_t *holder) {
    static uint32_t last_reason, last_holder;
    const char *wrong = getenv("WRONG");
    if (!wrong || strncmp(wrong, "stale ", 6) != 0 || strcmp(wrong + 6, function) != 0)
        return;
    if (*reason != STATION_LINE_NO_REASON) {
        last_reason = *reason;
        last_holder = *holder;
    }
    *reason = last_reason;
    *holder = last_holder;
}

__attribute__((constructor)) static void start(void) {
    const char *wrong = getenv("WRONG");
    if (wrong && strcmp(wrong, "ends") == 0)
        (void)atexit(die);
}

uint32_t __wrap_station_line_check(const uint8_t *table, size_t table_len) {
    uint32_t number = __real_station_line_check(with_other_bound(table, table_len), table_len);
    touch("check", "table", table, table_len, 0);
    return number;
}

struct station_line_ran __wrap_station_line_run(const uint8_t *table, size_t table_len, const uint8_t *steps, size_t steps_len,
                                                uint8_t *room, size_t room_len) {
    const uint8_t *read = with_other_bound(table, table_len);
    struct station_line_ran ran = __real_station_line_run(read, table_len, steps, steps_len, room, room_len);
    spoil_sites(table, room, ran.stations);
    touch("run", "table", table, table_len, 0);
    touch("run", "list", steps, steps_len, 0);
    touch("run", "room", room, room_len, (size_t)512 * ran.stations);
    keep_reason("run", &ran.reason, &ran.holder);
    return ran;
}

struct station_line_filled __wrap_station_line_allowed(const uint8_t *table, size_t table_len, uint8_t *room, size_t room_len) {
    struct station_line_filled filled = __real_station_line_allowed(table, table_len, room, room_len);
    touch("allowed", "table", table, table_len, 0);
    touch("allowed", "room", room, room_len, (size_t)12 * filled.filled);
    return filled;
}

struct station_line_leave __wrap_station_line_may_leave(const uint8_t *table, size_t table_len, uint32_t station) {
    struct station_line_leave leave = __real_station_line_may_leave(table, table_len, station);
    touch("leave", "table", table, table_len, 0);
    keep_reason("leave", &leave.reason, &leave.holder);
    hold_by_site(&leave, table, table_len, station);
    return leave;
}

struct station_line_viewed __wrap_station_line_view(const uint8_t *table, size_t table_len, size_t position) {
    struct station_line_viewed viewed = __real_station_line_view(table, table_len, position);
    touch("view", "table", table, table_len, 0);
    return viewed;
}
