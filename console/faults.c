#include "faults.h"

#include <stdarg.h>
#include <stdbool.h>
#include <stdio.h>

#include "station_line_layout.h"

/* One block that is looked through. */
struct search {
    const uint8_t *table;
    size_t len, block;
    uint32_t number;
    struct station_line_block fields;
    place_taker *take;
    void *context;
};

static const uint8_t *block_bytes(const struct search *search) {
    return search->table + STATION_LINE_BLOCK_BYTES * search->block;
}

static bool in_range(uint32_t number) {
    return number >= 1 && number <= STATION_LINE_MOST_NUMBER;
}

/* The first block before `end` that has this station's number. */
static bool find_number(const struct search *search, size_t end, uint32_t station, size_t *block) {
    for (size_t k = 0; k < end; k++)
        if (station_line_get32(search->table + STATION_LINE_BLOCK_BYTES * k + 4) == station) {
            *block = k;
            return true;
        }
    return false;
}

static bool is_unknown(const struct search *search, uint32_t station) {
    size_t block;
    return in_range(station) && !find_number(search, search->len / STATION_LINE_BLOCK_BYTES, station, &block);
}

/* A place is found: the field, its offset in the block, and what is the matter with it. */
#ifdef __GNUC__
__attribute__((format(printf, 4, 5)))
#endif
static void
found(const struct search *search, const char *field, size_t offset, const char *format, ...) {
    struct place place = {search->number, search->block, search->fields.station, ""};
    int len = snprintf(place.words, sizeof place.words, "%s at %zu ", field, STATION_LINE_BLOCK_BYTES * search->block + offset);
    va_list values;
    va_start(values, format);
    if (len >= 0 && (size_t)len < sizeof place.words)
        (void)vsnprintf(place.words + len, sizeof place.words - (size_t)len, format, values);
    va_end(values);
    search->take(search->context, &place);
}

static void find_check(const struct search *search) {
    unsigned right = station_line_check_word(block_bytes(search));
    if (search->fields.check != right)
        found(search, "check word", 510, "is %u, should be %u", (unsigned)search->fields.check, right);
}

static void find_head(const struct search *search) {
    const struct station_line_block *fields = &search->fields;
    if (fields->layout != 1)
        found(search, "layout number", 0, "is %u, should be 1", (unsigned)fields->layout);
    if (fields->flags > 1)
        found(search, "flags", 2, "is %u, should be 0 or 1", (unsigned)fields->flags);
    if (!in_range(fields->station))
        found(search, "station number", 4, "is %u, should be 1 to 999,999", (unsigned)fields->station);
    if (fields->left != 0 && !in_range(fields->left))
        found(search, "left", 8, "is %u, should be 0 to 999,999", (unsigned)fields->left);
    if (fields->right != 0 && !in_range(fields->right))
        found(search, "right", 12, "is %u, should be 0 to 999,999", (unsigned)fields->right);
    if (fields->count > STATION_LINE_MOST_MESSAGES)
        found(search, "count of messages", 16, "is %u, should be 0 to 32", (unsigned)fields->count);
    if (fields->site > STATION_LINE_MOST_SITE)
        found(search, "site code", 18, "is %u, should be 0 to 9,999", (unsigned)fields->site);
}

static void name_message(char *name, size_t size, size_t k) {
    (void)snprintf(name, size, "message %zu", k + 1);
}

static void find_message(const struct search *search, size_t k) {
    const struct station_line_message *message = &search->fields.messages[k];
    bool introduction = message->kind == STATION_LINE_INTRODUCTION;
    bool removal = message->kind == STATION_LINE_REMOVE_LEFT || message->kind == STATION_LINE_REMOVE_RIGHT;
    char name[32];
    name_message(name, sizeof name, k);
    if (!introduction && !removal)
        found(search, name, 20 + 8 * k, "has kind %u, should be 1 to 3", (unsigned)message->kind);
    if (message->gap != 0)
        found(search, name, 22 + 8 * k, "has %u between kind and number, should be 0", (unsigned)message->gap);
    if (introduction && !in_range(message->number))
        found(search, name, 24 + 8 * k, "introduces %u, should be 1 to 999,999", (unsigned)message->number);
    if (removal && message->number != 0)
        found(search, name, 24 + 8 * k, "has number %u, should be 0", (unsigned)message->number);
}

/* The bytes from `from` up to `end` of the block are to be 0; one place is given for the first that isn't. */
static void find_zeros(const struct search *search, const char *field, size_t from, size_t end) {
    size_t others = 0, first = from;
    for (size_t at = from; at < end; at++)
        if (block_bytes(search)[at] != 0 && others++ == 0)
            first = at;
    if (others > 0)
        found(search, field, first, "is %u, should be 0; %zu such byte%s up to %zu", (unsigned)block_bytes(search)[first], others,
              others == 1 ? "" : "s", STATION_LINE_BLOCK_BYTES * search->block + end - 1);
}

static void find_fields(const struct search *search) {
    size_t held = station_line_bag_size(&search->fields);
    find_head(search);
    for (size_t k = 0; k < held; k++)
        find_message(search, k);
    find_zeros(search, "a place behind the messages", 20 + 8 * held, 276);
    find_zeros(search, "a byte behind the places", 276, 510);
}

static void find_sides(const struct search *search) {
    unsigned station = search->fields.station, left = search->fields.left, right = search->fields.right;
    if (left != 0 && left >= station)
        found(search, "left", 8, "is %u, should be below %u", left, station);
    if (right != 0 && right <= station)
        found(search, "right", 12, "is %u, should be above %u", right, station);
}

static void find_twin(const struct search *search) {
    size_t block;
    if (find_number(search, search->block, search->fields.station, &block))
        found(search, "station number", 4, "is %u, as in block %zu", (unsigned)search->fields.station, block + 1);
}

static void find_unknown(const struct search *search) {
    const struct station_line_block *fields = &search->fields;
    if (is_unknown(search, fields->left))
        found(search, "left", 8, "is %u, which has no block", (unsigned)fields->left);
    if (is_unknown(search, fields->right))
        found(search, "right", 12, "is %u, which has no block", (unsigned)fields->right);
    for (size_t k = 0; k < station_line_bag_size(fields); k++) {
        const struct station_line_message *message = &fields->messages[k];
        char name[32];
        name_message(name, sizeof name, k);
        if (message->kind == STATION_LINE_INTRODUCTION && is_unknown(search, message->number))
            found(search, name, 20 + 8 * k, "introduces %u, which has no block", (unsigned)message->number);
    }
}

void find_in_block(const uint8_t *table, size_t len, size_t block, uint32_t number, place_taker *take, void *context) {
    struct search search = {.table = table, .len = len, .block = block, .number = number, .take = take, .context = context};
    station_line_read_block(block_bytes(&search), &search.fields);
    switch (number) {
    case STATION_LINE_CHECK_WORD:
        find_check(&search);
        break;
    case STATION_LINE_FIELD:
        find_fields(&search);
        break;
    case STATION_LINE_SIDES:
        find_sides(&search);
        break;
    case STATION_LINE_TWICE:
        find_twin(&search);
        break;
    case STATION_LINE_UNKNOWN:
        find_unknown(&search);
        break;
    default:
        break; /* 1 and 2 are about the length */
    }
}

void find_places(const uint8_t *table, size_t len, uint32_t number, place_taker *take, void *context) {
    for (size_t block = 0; block < len / STATION_LINE_BLOCK_BYTES; block++)
        find_in_block(table, len, block, number, take, context);
}
