/* The mutator: it knows the layout of table and list, sets the check words right, and runs the list so far to choose steps that may be
 * done next. One input in ten is changed as plain bytes. */
#include "case.h"
#include "station_line.h"

#include <string.h>

size_t LLVMFuzzerMutate(uint8_t *data, size_t size, size_t most);
size_t LLVMFuzzerCustomMutator(uint8_t *data, size_t size, size_t most, unsigned int seed);
size_t LLVMFuzzerCustomCrossOver(const uint8_t *one, size_t one_size, const uint8_t *two, size_t two_size, uint8_t *out, size_t most,
                                 unsigned int seed);

static uint32_t state;

static uint32_t below(uint32_t n)
{
    state ^= state << 13;
    state ^= state >> 17;
    state ^= state << 5;
    return (uint32_t)(((uint64_t)state * n) >> 32);
}

/* The case at hand, taken apart. */
static uint8_t table[MOST_TABLE], steps[MOST_STEPS], room[MOST_TABLE];
static size_t table_len, steps_len, room_len;
static uint32_t station;

static uint32_t blocks(void)
{
    return (uint32_t)(table_len / BLOCK);
}

static uint32_t number_of(const uint8_t *t, uint32_t count)
{
    return count == 0 ? 1 + below(9) : get32(t + (size_t)below(count) * BLOCK + 4);
}

/* A station of the table; now and then any number. */
static uint32_t some_station(void)
{
    switch (below(40)) {
    case 0:
        return below(LARGEST + 3);
    case 1:
        return number_of(table, blocks()) + 1;
    default:
        return number_of(table, blocks());
    }
}

/* A message more, where there is a place for it. */
static void fill_place(uint8_t *block, uint32_t kind, uint32_t number)
{
    if (get16(block + 16) < 32) {
        add_message(block, kind, kind == 1 ? number : 0);
    }
}

static int is_present(uint32_t number)
{
    for (uint32_t j = 0; j < blocks(); j++) {
        if (get32(table + (size_t)j * BLOCK + 4) == number) {
            return 1;
        }
    }
    return 0;
}

static void add_block(void)
{
    uint32_t number = 0;
    do {
        number = below(3) == 0 ? 1 + below(LARGEST) : 1 + below(96);
    } while (is_present(number) && below(100) != 0);
    if (table_len + BLOCK > MOST_TABLE) {
        return;
    }
    uint8_t *b = table + table_len - table_len % BLOCK;
    table_len = (size_t)(b - table) + BLOCK;
    put_block(b, number, 0, 0, (int)below(2));
}

/* A neighbour on its own side, or none. */
static void set_side(uint8_t *b)
{
    uint32_t own = get32(b + 4);
    for (int tries = 0; tries < 8; tries++) {
        uint32_t other = some_station();
        if (other != own) {
            put32(b + (other < own ? 8 : 12), below(6) == 0 ? 0 : other);
            return;
        }
    }
}

/* The station stays, and its messages are introductions of itself where they are none yet. */
static void settle(uint8_t *b)
{
    put16(b + 2, 0);
    for (uint32_t place = 0; place < 32 && place < get16(b + 16); place++) {
        uint8_t *message = b + 20 + 8 * (size_t)place;
        if (get16(message) != 1) {
            put16(message, 1);
            put32(message + 4, get32(b + 4));
        }
    }
}

/* Every block gets its neighbours in line, and every other time the table is in line. */
static void put_in_line(void)
{
    uint32_t whole = below(2);
    for (uint32_t i = 0; i < blocks(); i++) {
        uint8_t *b = table + (size_t)i * BLOCK;
        if (whole == 1) {
            settle(b);
        }
        uint32_t own = get32(b + 4), left = 0, right = 0;
        for (uint32_t j = 0; j < blocks(); j++) {
            uint32_t other = get32(table + (size_t)j * BLOCK + 4);
            left = other < own && other > left ? other : left;
            right = other > own && (right == 0 || other < right) ? other : right;
        }
        put32(b + 8, left);
        put32(b + 12, right);
    }
}

/* A site code, most of them inside the bound; the number of a station among them. */
static uint32_t some_site(void)
{
    static const uint32_t edges[] = {0, 1, 255, 256, MOST_SITE};
    switch (below(12)) {
    case 0:
        return MOST_SITE + 1 + below(300);
    case 1:
        return below(65536);
    case 2:
    case 3:
        return number_of(table, blocks()) % (MOST_SITE + 1);
    case 4:
    case 5:
    case 6:
        return edges[below(5)];
    default:
        return 1 + below(MOST_SITE);
    }
}

/* One block gets a site code, or each of them gets one that is inside the bound, or loses it. */
static void change_sites(uint8_t *b)
{
    uint32_t all = below(5), n = blocks();
    if (all > 1) {
        put16(b + 18, some_site());
        return;
    }
    for (uint32_t i = 0; i < n; i++) {
        put16(table + (size_t)i * BLOCK + 18, all * (1 + below(MOST_SITE)));
    }
}

static void change_table(void)
{
    uint32_t n = blocks();
    if (n == 0 || below(6) == 0) {
        for (uint32_t k = below(8) == 0 ? 64 : 1 + below(4); k > 0; k--) {
            add_block();
        }
        return;
    }
    uint8_t *b = table + (size_t)below(n) * BLOCK;
    switch (below(13)) {
    case 0:
        put16(b + 2, get16(b + 2) ^ 1);
        break;
    case 1:
    case 2:
    case 3:
        set_side(b);
        break;
    case 4:
    case 5:
        fill_place(b, 1 + below(3), some_station());
        break;
    case 6: {
        uint32_t kind = 1 + below(3), number = some_station();
        for (uint32_t wanted = 30 + below(3); get16(b + 16) < wanted && get16(b + 16) < 32;) {
            fill_place(b, kind, number);
        }
        break;
    }
    case 7:
        memset(b + 20, 0, 256);
        put16(b + 16, 0);
        break;
    case 8:
        memmove(b, table + table_len - table_len % BLOCK - BLOCK, BLOCK);
        table_len -= BLOCK;
        break;
    case 9:
        put32(b + 4, 1 + below(LARGEST));
        break;
    case 10:
        put_in_line();
        break;
    case 11:
        change_sites(b);
        break;
    default:
        b[below(8) == 0 ? below(BLOCK) : below(36)] ^= (uint8_t)(1u << below(8));
        break;
    }
}

/* Names of stations without a block go, so that more tables are accepted. */
static void clear_unknown(void)
{
    uint32_t n = blocks();
    for (uint32_t i = 0; i < n; i++) {
        uint8_t *b = table + (size_t)i * BLOCK;
        uint32_t count = get16(b + 16);
        for (size_t field = 8; field < 20 + 8 * (size_t)(count > 32 ? 0 : count); field += field < 16 ? 4 : 8) {
            size_t at = field == 16 ? 24 : field > 16 ? field + 4 : field;
            if (field >= 16 && get16(b + at - 4) != 1) {
                continue;
            }
            if (!is_present(get32(b + at))) {
                put32(b + at, field < 16 ? 0 : get32(b + 4));
            }
        }
    }
}

static void add_step(uint32_t action, uint32_t kind, uint32_t at, uint32_t number)
{
    if (steps_len + STEP <= MOST_STEPS) {
        put_step(steps + steps_len, action, kind, at, number);
        steps_len += STEP;
    }
}

/* Steps that may be done after the list so far, chosen from the table that it leaves. A list that is refused is cut there first. */
static void follow(uint32_t wanted)
{
    for (uint32_t k = 0; k < wanted; k++) {
        steps_len -= steps_len % STEP;
        struct station_line_ran ran = station_line_run(table, table_len, steps, steps_len, room, sizeof room);
        if ((1 <= ran.answer && ran.answer <= 9) || ran.stations == 0) {
            return;
        }
        steps_len = (size_t)ran.done * STEP;
        /* Several steps from one table: most are still possible after one another. */
        for (uint32_t more = 1 + below(4); more > 0; more--) {
            const uint8_t *b = room + (size_t)below(ran.stations) * BLOCK;
            uint32_t own = get32(b + 4), count = get16(b + 16);
            if (count > 0 && below(3) != 0) {
                const uint8_t *place = b + 20 + 8 * (size_t)below(count);
                add_step(2, get16(place), own, get32(place + 4));
            } else if (get16(b + 2) == 1 && count == 0 && below(2) == 0) {
                add_step(3, 0, own, 0);
            } else {
                add_step(1, 0, own, 0);
            }
        }
    }
}

static void change_steps(void)
{
    size_t total = steps_len / STEP;
    uint8_t *s = steps + (total == 0 ? 0 : below((uint32_t)total)) * STEP;
    switch (below(8)) {
    case 0:
        add_step(1 + below(3), below(2) * (1 + below(3)), some_station(), below(2) * some_station());
        break;
    case 1:
        steps_len = (size_t)below((uint32_t)total + 1) * STEP;
        break;
    case 2:
        if (total > 0) {
            s[below(STEP)] ^= (uint8_t)(1u << below(8));
        }
        break;
    case 3:
        if (total > 0) {
            put32(s + 4, some_station());
        }
        break;
    case 4:
        /* One timeout again and again fills a bag. */
        for (uint32_t k = below(40), p = some_station(); k > 0; k--) {
            add_step(1, 0, p, 0);
        }
        break;
    default:
        follow(1 + below(12));
        break;
    }
}

static void take_apart(const uint8_t *data, size_t size)
{
    struct cut c = cut(data, size);
    memcpy(table, c.table, c.table_len);
    memcpy(steps, c.steps, c.steps_len);
    table_len = c.table_len;
    steps_len = c.steps_len;
    room_len = c.room_len;
    station = c.station;
}

static size_t put_together(uint8_t *data, size_t most)
{
    if (HEAD + table_len + steps_len > most) {
        if (HEAD + table_len > most) {
            return 0;
        }
        steps_len = (most - HEAD - table_len) / STEP * STEP;
    }
    put32(data, (uint32_t)table_len);
    put32(data + 4, (uint32_t)steps_len);
    put32(data + 8, (uint32_t)room_len);
    put32(data + 12, station);
    memcpy(data + HEAD, table, table_len);
    memcpy(data + HEAD + table_len, steps, steps_len);
    return HEAD + table_len + steps_len;
}

size_t LLVMFuzzerCustomMutator(uint8_t *data, size_t size, size_t most, unsigned int seed)
{
    state = seed | 1;
    below(2);
    if (below(10) == 0) {
        return LLVMFuzzerMutate(data, size, most);
    }
    take_apart(data, size);
    int sealed = below(12) != 0;
    for (uint32_t turns = 1 + below(4); turns > 0; turns--) {
        switch (below(9)) {
        case 0:
        case 1:
        case 2:
            change_table();
            if (below(4) != 0) {
                clear_unknown();
            }
            break;
        case 3:
            station = some_station();
            break;
        case 4:
            table_len -= below(8) == 0 && table_len > 0 ? 1 : 0;
            steps_len -= below(8) == 0 && steps_len > 0 ? 1 : 0;
            room_len = table_len + (below(2) == 0 ? below(1024) : 0);
            room_len -= below(8) == 0 && room_len > 0 ? 1 : 0;
            break;
        default:
            for (size_t at = 0; at + BLOCK <= table_len; at += BLOCK) {
                seal(table + at);
            }
            change_steps();
            break;
        }
    }
    if (sealed) {
        for (size_t at = 0; at + BLOCK <= table_len; at += BLOCK) {
            seal(table + at);
        }
    }
    if (below(8) != 0 && room_len < table_len) {
        room_len = table_len;
    }
    size_t made = put_together(data, most);
    return made == 0 ? LLVMFuzzerMutate(data, size, most) : made;
}

/* The table of one case with the steps of the other. */
size_t LLVMFuzzerCustomCrossOver(const uint8_t *one, size_t one_size, const uint8_t *two, size_t two_size, uint8_t *out, size_t most,
                                 unsigned int seed)
{
    state = seed | 1;
    take_apart(one, one_size);
    struct cut other = cut(two, two_size);
    size_t kept = steps_len / STEP == 0 ? 0 : (size_t)below((uint32_t)(steps_len / STEP) + 1) * STEP;
    size_t taken = smaller(other.steps_len, MOST_STEPS - kept);
    memcpy(steps + kept, other.steps, taken);
    steps_len = kept + taken;
    return put_together(out, most);
}
