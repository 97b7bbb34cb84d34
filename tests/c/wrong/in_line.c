/* The line question of the stand-in (touch.c). Beside what it may touch it has ways of its own to be wrong, which WRONG names by `line` and a
 * word:
 *
 *   neighbours  only the neighbours are looked at, as before document 02, T-04
 *   dropped     the neighbours are not looked at
 *   left        a remove-left is not looked at
 *   right       a remove-right is not looked at
 *   first       a removal is looked for in the first place only
 *   mark        the leaving mark is not looked at
 *   waiting     a table in which an introduction waits is not in line */
#include <stdlib.h>
#include <string.h>

#include "layout.h"
#include "station_line.h"
#include "touch.h"
#include "tries.h"

struct station_line_told __real_station_line_in_line(const uint8_t *table, size_t table_len);
struct station_line_told __wrap_station_line_in_line(const uint8_t *table, size_t table_len);

static int is_wrong(const char *way) {
    const char *wrong = getenv("WRONG");
    return wrong && strncmp(wrong, "line ", 5) == 0 && strcmp(wrong + 5, way) == 0;
}

/* Whether the block has the nearest stations for its neighbours. */
static int stands(const uint8_t *table, size_t table_len, const uint8_t *block) {
    uint32_t own = get32(block + 4), left = 0, right = 0;
    for (size_t at = 0; at < table_len; at += BLOCK) {
        uint32_t other = get32(table + at + 4);
        left = other < own && other > left ? other : left;
        right = other > own && (right == 0 || other < right) ? other : right;
    }
    return get32(block + 8) == left && get32(block + 12) == right;
}

/* Whether no message of the block is in the way. */
static int is_quiet(const uint8_t *block) {
    for (uint32_t k = 0; k < get16(block + 16); k++) {
        uint32_t kind = get16(block + 20 + 8 * k);
        int seen = kind == REMOVE_LEFT ? !is_wrong("left") : kind == REMOVE_RIGHT ? !is_wrong("right") : is_wrong("waiting");
        if (seen && !(k > 0 && is_wrong("first")))
            return 0;
    }
    return 1;
}

static int is_in_line(const uint8_t *table, size_t table_len) {
    for (size_t at = 0; at < table_len; at += BLOCK) {
        const uint8_t *block = table + at;
        if (!is_wrong("dropped") && !stands(table, table_len, block))
            return 0;
        if (!is_wrong("neighbours") && !is_quiet(block))
            return 0;
        if (!is_wrong("neighbours") && !is_wrong("mark") && get16(block + 2) != 0)
            return 0;
    }
    return 1;
}

struct station_line_told __wrap_station_line_in_line(const uint8_t *table, size_t table_len) {
    struct station_line_told told = __real_station_line_in_line(table, table_len);
    touch("line", "table", table, table_len, 0);
    if (told.answer == STATION_LINE_DONE)
        told.yes = (uint32_t)is_in_line(table, table_len);
    return told;
}
