/* Calls the seven functions of include/station_line.h on a fuzzer's input and stops where one of these laws is broken:
 *
 *  - the room is untouched at 1 to 9, and past the written table at every other answer; what surrounds it is never touched;
 *  - the counts at 1 to 9 are 0; all steps are done exactly at 0;
 *  - the check, the run, the list of allowed steps, the two questions, the roll call and the view give one and the same number of 1 to 7;
 *  - what is written is accepted, its blocks rise, and a run of it with no steps writes the same bytes;
 *  - a list of allowed steps is refused with 9 exactly when its room is shorter, and the room is then untouched, as it is past the list;
 *  - its steps rise; a step is in it exactly when a run of that step alone answers 0 (tried for some of them where there are many);
 *  - the blocks in the opposite order give the same answers and bytes;
 *  - a list cut in two, the second part run over what the first one wrote, gives what the whole list gives;
 *  - an exit of the station asked about is refused by 13, 14 or 11 as the leave question says;
 *  - the leave question finds the own bag first and then the smallest holder, read here from the blocks in any order, and gives no reason
 *    beside a refusal; a run gives one at 14 alone, which is the question's own, asked of what the run wrote;
 *  - a roll call is refused for the table, then with 17 for more than 64 questions, then with 9 for too few records, and every record is
 *    then as it was, as are those past the questions; else each record is what the blocks say of its station, in the questions' order;
 *  - the line question agrees with the written table, read here;
 *  - after a run answered 0 a table in line is in line again, and the list held no exit; and the station asked about may still leave, if it
 *    might and the list had no step at it;
 *  - a site code above 9,999 is 4 where neither 1, 2 nor 3 applies; every station written has the code that it had; and the table with its
 *    codes taken out gives the same answers, the same list, and the same bytes but for the codes and the check words;
 *  - the view gives a block at its place, and past the last one the end.
 *
 * The archive itself is not instrumented: it has no coverage counters and no sanitizer checks inside. Three things stand in for that.
 * What the archive answers and writes is told to the fuzzer as extra counters (`tell` below), so that inputs with new outcomes are kept.
 * The mutator of fuzz/mutate.c knows the layout and follows the run, so that deep states are reached. And what is handed over lies
 * against a page that may not be touched (tests/c/areas.h), so that a byte read or written outside, or a lent one changed, stops the
 * program. */
#include "areas.h"
#include "case.h"
#include "station_line.h"

#include <stdio.h>
#include <stdlib.h>
#include <string.h>

int LLVMFuzzerTestOneInput(const uint8_t *data, size_t size);

/* libFuzzer looks at the bytes of this section as it does at its own counters; elsewhere they are idle. */
enum { COUNTERS = 1 << 14 };
#ifdef __clang__
__attribute__((section("__libfuzzer_extra_counters")))
#endif
static uint8_t counters[COUNTERS];

uint64_t answers_met[16], lists_met[10], lines_met[2], reasons_met[4], stops_met[4], calls_met[18], records_met[4], sites_met[3];
uint64_t lasting_met[2];

static void tell(uint32_t kind, uint32_t a, uint32_t b, uint32_t c)
{
    uint32_t mixed = ((kind * 31 + a) * 37 + b) * 41 + c;
    counters[mixed % COUNTERS] = 1;
}

/* 0, 1, 2, 3-4, 5-8 and so on. */
static uint32_t size_class(size_t n)
{
    uint32_t class = 0;
    while (n > ((size_t)1 << class) / 2) {
        class ++;
    }
    return class;
}

static void law(int holds, const char *what)
{
    if (!holds) {
        fprintf(stderr, "broken: %s\n", what);
        abort();
    }
}

static struct area tables, lists, rooms;

struct result {
    struct station_line_ran ran;
    uint8_t bytes[MOST_TABLE];
};

static const uint8_t *block_of(const uint8_t *table, size_t table_len, uint32_t station)
{
    for (size_t at = 0; at + BLOCK <= table_len; at += BLOCK) {
        if (get32(table + at + 4) == station) {
            return table + at;
        }
    }
    return NULL;
}

/* Whether a block of an accepted table has the station as a neighbour or as an introduction: no other place of a bag has a number. */
static int names(const uint8_t *block, uint32_t station)
{
    int found = get32(block + 8) == station || get32(block + 12) == station;
    for (uint32_t k = 0; k < get16(block + 16); k++) {
        found = found || get32(block + 24 + 8 * (size_t)k) == station;
    }
    return found;
}

/* What the blocks of an accepted table, in any order, say of a station: its own bag first, then the smallest holder. */
static struct station_line_leave leave_in_blocks(const uint8_t *table, size_t table_len, uint32_t station)
{
    const uint8_t *own = block_of(table, table_len, station);
    uint32_t holder = 0;
    for (size_t at = 0; at < table_len; at += BLOCK) {
        uint32_t other = get32(table + at + 4);
        if (other != station && names(table + at, station) && (holder == 0 || other < holder)) {
            holder = other;
        }
    }
    if (own == NULL) {
        return (struct station_line_leave){11, STATION_LINE_NO_REASON, 0};
    }
    if (get16(own + 16) > 0) {
        return (struct station_line_leave){0, STATION_LINE_OWN_BAG, 0};
    }
    return (struct station_line_leave){0, holder != 0 ? STATION_LINE_HELD_BY : STATION_LINE_MAY_LEAVE, holder};
}

/* The leave question about a station of an accepted table. */
static struct station_line_leave leave_of(const uint8_t *table, size_t table_len, uint32_t station, enum place place)
{
    struct station_line_leave leave = station_line_may_leave(lend_bytes(&tables, table, table_len, place), table_len, station);
    struct station_line_leave wanted = leave_in_blocks(table, table_len, station);
    law(leave.answer == wanted.answer, "the leave question finds the station");
    law(leave.reason == wanted.reason, "the leave question looks at the own bag, then for holders");
    law(leave.holder == wanted.holder, "the leave question gives the smallest holder");
    return leave;
}

/* Every station of what a run wrote has the site code that it had. A table by rising number, as most are, is walked once. */
static void keep_sites(const struct result *r, const uint8_t *table, size_t table_len)
{
    size_t blocks = table_len / BLOCK, at = 0;
    for (size_t k = 0; k < r->ran.stations; k++) {
        const uint8_t *b = r->bytes + k * BLOCK;
        size_t passed = 0;
        while (passed < blocks && get32(table + at * BLOCK + 4) != get32(b + 4)) {
            at = at + 1 < blocks ? at + 1 : 0;
            passed++;
        }
        law(passed < blocks, "every station written was there");
        law(get16(table + at * BLOCK + 18) == get16(b + 18), "every station written has the site code that it had");
    }
}

/* One run in a painted room, with the laws about the room, the counts and the site codes. */
static void run(struct result *r, const uint8_t *table, size_t table_len, const uint8_t *steps, size_t steps_len, size_t room_len,
                enum place place)
{
    const uint8_t *t = lend_bytes(&tables, table, table_len, place);
    const uint8_t *s = lend_bytes(&lists, steps, steps_len, place);
    uint8_t *room = lend_room(&rooms, room_len, place);
    r->ran = station_line_run(t, table_len, s, steps_len, room, room_len);
    size_t written = (size_t)r->ran.stations * BLOCK;
    law(r->ran.answer <= 15, "the answer is one of the table");
    if (1 <= r->ran.answer && r->ran.answer <= 9) {
        law(r->ran.done == 0 && r->ran.stations == 0, "no counts at 1 to 9");
    } else {
        law(written <= table_len && written <= room_len, "no more stations than before");
        law(steps_len % STEP == 0 && r->ran.done <= steps_len / STEP, "no more steps than the list has");
        law((r->ran.answer == 0) == (r->ran.done == steps_len / STEP), "all steps are done exactly at 0");
    }
    law(r->ran.answer == 14 || (r->ran.reason == 0 && r->ran.holder == 0), "no reason but at 14");
    law(rest_untouched(&rooms, room_len, place, written), "nothing but the written table is touched");
    memcpy(r->bytes, room, written);
    keep_sites(r, table, table_len);
}

static void same(const struct result *a, const struct result *b, const char *what)
{
    law(a->ran.answer == b->ran.answer && a->ran.done == b->ran.done && a->ran.stations == b->ran.stations, what);
    law(a->ran.reason == b->ran.reason && a->ran.holder == b->ran.holder, what);
    law(memcmp(a->bytes, b->bytes, (size_t)a->ran.stations * BLOCK) == 0, what);
}

struct list {
    uint32_t answer, filled;
    uint8_t bytes[MOST_LIST];
};

/* One list of allowed steps in a painted room, with the laws about the room and the count. */
static void list_steps(struct list *l, const uint8_t *table, size_t table_len, size_t room_len, enum place place)
{
    const uint8_t *t = lend_bytes(&tables, table, table_len, place);
    uint8_t *room = lend_room(&rooms, room_len, place);
    struct station_line_filled filled = station_line_allowed(t, table_len, room, room_len);
    size_t written = (size_t)filled.filled * STEP;
    law(filled.answer <= 7 || filled.answer == 9, "the list's answer is 0 to 7 or 9");
    law(filled.answer == 0 || filled.filled == 0, "a list that is refused has no steps");
    law(written <= MOST_LIST && written <= room_len, "no more steps than the room takes, and than 2,112");
    law(rest_untouched(&rooms, room_len, place, written), "nothing but the list is touched");
    memcpy(l->bytes, room, written);
    l->answer = filled.answer;
    l->filled = filled.filled;
}

static void same_list(const struct list *a, const struct list *b, const char *what)
{
    law(a->answer == b->answer && a->filled == b->filled, what);
    law(memcmp(a->bytes, b->bytes, (size_t)a->filled * STEP) == 0, what);
}

static int rises_in_line(const uint8_t *table, size_t blocks, const char *what)
{
    int in_line = 1;
    for (size_t k = 0; k < blocks; k++) {
        const uint8_t *b = table + k * BLOCK;
        uint32_t left = k == 0 ? 0 : get32(b - BLOCK + 4), right = k + 1 == blocks ? 0 : get32(b + BLOCK + 4);
        law(left < get32(b + 4), what);
        in_line = in_line && get32(b + 8) == left && get32(b + 12) == right;
    }
    return in_line;
}

/* Whether no station of an accepted table leaves, and every message in its bags is an introduction. */
static int settled(const uint8_t *table, size_t blocks)
{
    for (size_t k = 0; k < blocks; k++) {
        const uint8_t *b = table + k * BLOCK;
        for (size_t place = 0; place < get16(b + 16); place++) {
            if (get16(b + 20 + 8 * place) != 1) {
                return 0;
            }
        }
        if (get16(b + 2) != 0) {
            return 0;
        }
    }
    return 1;
}

/* A table in line, in written order, lasts: the last message of the first bag that has one is delivered, and every station is as it was. */
static void deliver_in_line(const uint8_t *table, size_t table_len, enum place place)
{
    static struct result delivered;
    uint8_t step[STEP];
    size_t at = 0;
    while (at < table_len && get16(table + at + 16) == 0) {
        at += BLOCK;
    }
    if (at == table_len) {
        return;
    }
    const uint8_t *message = table + at + 12 + 8 * (size_t)get16(table + at + 16);
    put_step(step, 2, get16(message), get32(table + at + 4), get32(message + 4));
    run(&delivered, table, table_len, step, STEP, table_len, place);
    law(delivered.ran.answer == 0 || delivered.ran.answer == 15, "an introduction in a table in line is delivered, or finds a full bag");
    for (size_t k = 0; k < table_len; k += BLOCK) {
        law(memcmp(delivered.bytes + k, table + k, 16) == 0, "a table in line keeps its stations");
    }
    struct station_line_told again = station_line_in_line(lend_bytes(&tables, delivered.bytes, table_len, place), table_len);
    law(again.answer == 0 && again.yes == 1, "a table in line lasts");
}

/* The view, on the table as it was handed over: its blocks one by one, and the end near and far away. */
static void walk(const struct cut *c, uint32_t fault, enum place place)
{
    const uint8_t *table = lend_bytes(&tables, c->table, c->table_len, place);
    size_t blocks = fault == 0 ? c->table_len / BLOCK : 0;
    for (size_t p = 0; p <= blocks + 1; p += 1 + blocks / 8) {
        struct station_line_viewed v = station_line_view(table, c->table_len, p);
        int there = p < blocks;
        law(v.answer == fault && v.has_block == (uint32_t)there, "the view gives the check's number, and the blocks there are");
        law(v.offset == (there ? p * BLOCK : 0) && v.next == (there ? p + 1 : p), "the view goes block by block");
    }
    struct station_line_viewed far = station_line_view(table, c->table_len, SIZE_MAX - c->station);
    law(far.answer == fault && far.has_block == 0 && far.offset == 0 && far.next == SIZE_MAX - c->station, "the end comes again");
}

/* An exit of the station asked about, beside the leave question's answer. */
static void exit_asked(const struct cut *c, struct station_line_leave leave, enum place place)
{
    static struct result exited;
    const uint8_t *block = block_of(c->table, c->table_len, c->station);
    size_t blocks = c->table_len / BLOCK;
    uint8_t step[STEP];
    put_step(step, 3, 0, c->station, 0);
    run(&exited, c->table, c->table_len, step, STEP, c->table_len, place);
    uint32_t got = exited.ran.answer;
    if (block == NULL) {
        law(got == (1 <= c->station && c->station <= LARGEST ? 11 : 10), "an exit of an absent station");
    } else if (get16(block + 2) == 0) {
        law(got == 13, "an exit of a staying station");
    } else if (leave.reason != STATION_LINE_MAY_LEAVE) {
        law(got == 14, "an exit that the leave question denies");
        law(exited.ran.reason == leave.reason && exited.ran.holder == leave.holder, "it is denied for the same reason");
    } else {
        law(got == 0 || got == 15, "an exit that the leave question allows");
        law(exited.ran.stations == blocks - (got == 0), "an exit takes one block away");
    }
    tell(2, got, size_class(blocks), exited.ran.reason);
}

/* The two questions, on the table as it was handed over. */
static void ask(const struct cut *c, uint32_t fault, enum place place)
{
    static struct result plain;
    const uint8_t *table = lend_bytes(&tables, c->table, c->table_len, place);
    struct station_line_told line = station_line_in_line(table, c->table_len);
    if (fault != 0) {
        struct station_line_leave leave = station_line_may_leave(table, c->table_len, c->station);
        law(leave.answer == fault && leave.reason == 0 && leave.holder == 0, "the leave question gives the check's number alone");
        law(line.answer == fault && line.yes == 0, "the line question gives the check's number");
        return;
    }
    size_t blocks = c->table_len / BLOCK;
    run(&plain, c->table, c->table_len, NULL, 0, c->table_len, place);
    law(plain.ran.answer == 0 && plain.ran.stations == blocks, "no steps, no change");
    int neighbours = rises_in_line(plain.bytes, blocks, "blocks rise");
    law(line.answer == 0 && line.yes == (uint32_t)(neighbours && settled(plain.bytes, blocks)), "the line question");
    lines_met[line.yes]++;
    if (line.yes == 1) {
        deliver_in_line(plain.bytes, c->table_len, place);
    }
    struct station_line_leave leave = leave_of(c->table, c->table_len, c->station, place);
    reasons_met[leave.reason]++;
    tell(1, leave.answer, leave.reason, line.yes);
    exit_asked(c, leave, place);
}

/* The questions of an input's roll call: stations as they are stored, beginning with the one asked about, and each fourth one a number of
 * the step list. Gives how many they are, which the room's length says. */
static size_t put_questions(uint32_t *asked, const struct cut *c)
{
    size_t count = c->room_len % (MOST_ASKED + 1), blocks = c->table_len / BLOCK, numbers = c->steps_len / 4;
    for (size_t k = 0; k < count; k++) {
        asked[k] = c->station;
        if (k % 4 == 3 && numbers > 0) {
            asked[k] = get32(c->steps + k / 4 % numbers * 4);
        } else if (k > 0 && blocks > 0) {
            asked[k] = get32(c->table + (k + c->station) % blocks * BLOCK + 4);
        }
    }
    return count;
}

/* The records of an accepted table, beside its blocks. */
static void read_records(const struct cut *c, const uint32_t *asked, const struct station_line_leave *records, size_t count)
{
    for (size_t k = 0; k < count; k++) {
        struct station_line_leave wanted = leave_in_blocks(c->table, c->table_len, asked[k]);
        law(records[k].answer == wanted.answer, "a record has 11 where its own station is absent");
        law(records[k].reason == wanted.reason && records[k].holder == wanted.holder, "a record is what the blocks say of its station");
        records_met[wanted.reason]++;
        tell(9, wanted.reason, size_class(k), size_class(c->table_len / BLOCK));
    }
}

/* A roll call, on the table as it was handed over, with a record less than questions, just as many, or one or two more. */
static void call_roll(const struct cut *c, uint32_t fault, enum place place)
{
    static uint32_t asked[MOST_ASKED];
    const size_t record = sizeof(struct station_line_leave);
    size_t count = put_questions(asked, c), lent = count + c->station / 4 % 4;
    lent -= lent > 0 ? 1 : 0;
    const uint8_t *table = lend_bytes(&tables, c->table, c->table_len, place);
    const void *questions = lend_bytes(&lists, (const uint8_t *)asked, count * sizeof *asked, place);
    void *records = lend_room(&rooms, lent * record, place);
    struct station_line_filled filled = station_line_roll_call(table, c->table_len, questions, count, records, lent);
    uint32_t wanted = fault != 0 ? fault : count > 64 ? 17 : lent < count ? 9 : 0;
    law(filled.answer == wanted, "a roll call is refused for the table, then for its questions, then for its records");
    law(filled.filled == (wanted == 0 ? count : 0), "a roll call has a record for each question, or none");
    law(rest_untouched(&rooms, lent * record, place, filled.filled * record), "nothing but the records is touched");
    calls_met[wanted]++;
    tell(10, wanted, size_class(count), 0);
    read_records(c, asked, records, filled.filled);
}

/* Whether the first of two steps comes before the second in the list: by station, action, kind and number. */
static int is_before(const uint8_t *a, const uint8_t *b)
{
    uint32_t first[] = {get32(a + 4), get16(a), get16(a + 2), get32(a + 8)};
    uint32_t second[] = {get32(b + 4), get16(b), get16(b + 2), get32(b + 8)};
    size_t k = 0;
    while (k < 3 && first[k] == second[k]) {
        k++;
    }
    return first[k] < second[k];
}

static int is_listed(const struct list *l, const uint8_t *step)
{
    for (uint32_t k = 0; k < l->filled; k++) {
        if (memcmp(l->bytes + (size_t)k * STEP, step, STEP) == 0) {
            return 1;
        }
    }
    return 0;
}

/* Whether a run of this step alone does it. */
static int is_done(const struct cut *c, const uint8_t *step, enum place place)
{
    static struct result alone;
    run(&alone, c->table, c->table_len, step, STEP, c->table_len, place);
    return alone.ran.answer == 0;
}

/* Step k of a block: its timeout, then the delivery of each message in its bag, then its exit. */
static void put_own_step(uint8_t *step, const uint8_t *block, uint32_t k)
{
    uint32_t own = get32(block + 4), count = get16(block + 16);
    if (k == 0 || k > count) {
        put_step(step, k == 0 ? 1 : 3, 0, own, 0);
    } else {
        const uint8_t *place = block + 20 + 8 * (size_t)(k - 1);
        put_step(step, 2, get16(place), own, get32(place + 4));
    }
}

/* Of the steps that an accepted table's own blocks suggest, those are listed that a run does. Of a long table some are tried. */
static void try_own_steps(const struct cut *c, const struct list *l, enum place place)
{
    uint8_t step[STEP];
    size_t blocks = c->table_len / BLOCK, every = 1 + blocks / 4, turn = c->station % every;
    for (size_t at = 0; at < c->table_len; at += BLOCK) {
        for (uint32_t k = 0; k <= get16(c->table + at + 16) + 1; k++) {
            if (turn++ % every == 0) {
                put_own_step(step, c->table + at, k);
                law(is_listed(l, step) == is_done(c, step, place), "a step is listed exactly when a run does it");
            }
        }
    }
}

/* Each listed step comes after the one before it. Each is done by a run; of a long list some are tried. */
static void try_listed_steps(const struct cut *c, const struct list *l, enum place place)
{
    uint32_t every = 1 + l->filled / 64;
    for (uint32_t k = 0; k < l->filled; k++) {
        const uint8_t *step = l->bytes + (size_t)k * STEP;
        law(k == 0 || is_before(step - STEP, step), "the listed steps rise");
        if ((k + c->station) % every == 0) {
            law(is_done(c, step, place), "a run does a step that is listed");
        }
        tell(7, get16(step) * 4 + get16(step + 2), size_class(l->filled), 0);
    }
}

/* The list in the room of the input, in an exact one and in one that is a byte short. */
static void try_rooms(const struct cut *c, const struct list *whole, enum place place)
{
    static struct list again;
    size_t len = (size_t)whole->filled * STEP;
    list_steps(&again, c->table, c->table_len, c->room_len, place);
    lists_met[again.answer]++;
    law((again.answer == 9) == (whole->answer == 0 && c->room_len < len), "9 tells of the list's room");
    if (again.answer != 9) {
        same_list(&again, whole, "the list does not depend on the room");
    }
    list_steps(&again, c->table, c->table_len, len, place);
    same_list(&again, whole, "a room as long as the list suffices");
    if (len > 0) {
        list_steps(&again, c->table, c->table_len, len - 1, place);
        law(again.answer == 9, "a room one byte short is too short");
    }
}

/* The list of allowed steps, on the table as it was handed over. */
static void list_allowed(const struct cut *c, uint32_t fault, enum place place)
{
    static struct list whole;
    list_steps(&whole, c->table, c->table_len, MOST_LIST, place);
    law(whole.answer == fault, "the list gives the check's number");
    try_rooms(c, &whole, place);
    try_listed_steps(c, &whole, place);
    if (fault == 0) {
        try_own_steps(c, &whole, place);
    }
}

/* What the fuzzer is told of a run: its answer with the steps done and stations, the step it stopped at, and each block written. */
static void tell_run(const struct result *r, const struct cut *c)
{
    tell(3, r->ran.answer, size_class(r->ran.done), size_class(r->ran.stations));
    tell(4, r->ran.answer, size_class(c->table_len / BLOCK - r->ran.stations), 0);
    for (uint32_t k = 0; k <= r->ran.done && (k + 1) * STEP <= c->steps_len; k++) {
        const uint8_t *s = c->steps + k * STEP;
        uint32_t kind = get16(s) * 4 + get16(s + 2);
        const uint8_t *b = block_of(c->table, c->table_len, get32(s + 4));
        uint32_t sides = b == NULL ? 8 : (get32(b + 8) != 0) + 2 * (uint32_t)(get32(b + 12) != 0) + 4 * (get16(b + 2) & 1);
        tell(5, kind & 15, sides, k == r->ran.done ? r->ran.answer : 16);
    }
    for (uint32_t k = 0; k < r->ran.stations; k++) {
        const uint8_t *b = r->bytes + (size_t)k * BLOCK;
        uint32_t sides = (get32(b + 8) != 0) + 2 * (uint32_t)(get32(b + 12) != 0), count = get16(b + 16);
        tell(6, get16(b + 2) * 4 + sides, count, r->ran.answer);
        tell(11, size_class(get16(b + 18)), r->ran.answer, 0);
    }
}

/* What a run of the table and the list answers, beside the check's number. */
static void laws_of_answer(const struct cut *c, uint32_t fault, uint32_t answer)
{
    law(fault == 0 ? answer == 0 || answer > 7 : answer == fault, "check and run give the same number of 1 to 7");
    if (fault == 0) {
        int bad_list = c->steps_len % STEP != 0 || c->steps_len > 4096 * STEP;
        law((answer == 8) == bad_list, "8 tells of the list");
        law((answer == 9) == (!bad_list && c->room_len < c->table_len), "9 tells of the room");
    }
}

/* A run that has stopped with 14 gives what the leave question finds in the table that it wrote, for the station of the refused step. */
static void laws_of_reason(const struct cut *c, const struct result *whole, enum place place)
{
    if (whole->ran.answer != 14) {
        return;
    }
    uint32_t station = get32(c->steps + (size_t)whole->ran.done * STEP + 4);
    struct station_line_leave leave = leave_of(whole->bytes, (size_t)whole->ran.stations * BLOCK, station, place);
    law(leave.answer == 0 && leave.reason != STATION_LINE_MAY_LEAVE, "a 14 has a reason");
    law(whole->ran.reason == leave.reason && whole->ran.holder == leave.holder, "the reason of a 14 is the leave question's");
    stops_met[leave.reason]++;
    tell(8, leave.reason, size_class(whole->ran.stations), size_class(whole->ran.done));
}

/* The blocks in the opposite order, against the opposite pages. */
static void turn_blocks(const struct cut *c, const struct result *whole, enum place place)
{
    static uint8_t turned[MOST_TABLE];
    static struct result again;
    static struct list here, there;
    enum place opposite = place == BEHIND ? BEFORE : BEHIND;
    if (c->table_len % BLOCK != 0) {
        return;
    }
    for (size_t at = 0; at < c->table_len; at += BLOCK) {
        memcpy(turned + (c->table_len - BLOCK - at), c->table + at, BLOCK);
    }
    run(&again, turned, c->table_len, c->steps, c->steps_len, c->room_len, opposite);
    same(whole, &again, "the order of the blocks plays no part");
    list_steps(&here, c->table, c->table_len, MOST_LIST, place);
    list_steps(&there, turned, c->table_len, MOST_LIST, opposite);
    same_list(&here, &there, "the order of the blocks plays no part in the list");
}

/* What was written, checked and run with no steps. */
static void read_back(const struct result *whole, enum place place)
{
    static struct result again;
    size_t written = (size_t)whole->ran.stations * BLOCK;
    rises_in_line(whole->bytes, whole->ran.stations, "written blocks rise");
    law(station_line_check(lend_bytes(&tables, whole->bytes, written, place), written) == 0, "what is written is accepted");
    run(&again, whole->bytes, written, NULL, 0, written, place);
    law(again.ran.answer == 0 && again.ran.stations == whole->ran.stations, "what is written runs with no steps");
    law(memcmp(again.bytes, whole->bytes, written) == 0, "a run with no steps writes the same bytes");
}

/* The blocks with their site codes taken out and put into the check words, so that the words of each add up to what they did. */
static void without_sites(uint8_t *plain, const uint8_t *table, size_t table_len)
{
    memcpy(plain, table, table_len);
    for (size_t at = 0; at + BLOCK <= table_len; at += BLOCK) {
        put16(plain + at + 510, get16(table + at + 510) + get16(table + at + 18));
        put16(plain + at + 18, 0);
    }
}

/* What is said of a table whose codes are inside the bound is said of the plain one, which has none. */
static void same_without_sites(const struct cut *c, const uint8_t *plain, const struct result *whole, enum place place)
{
    static struct result without, taken_out;
    static struct list here, there;
    run(&without, plain, c->table_len, c->steps, c->steps_len, c->room_len, place);
    taken_out.ran = whole->ran;
    without_sites(taken_out.bytes, whole->bytes, (size_t)whole->ran.stations * BLOCK);
    same(&taken_out, &without, "site codes play no part in a run");
    list_steps(&here, c->table, c->table_len, MOST_LIST, place);
    list_steps(&there, plain, c->table_len, MOST_LIST, place);
    same_list(&here, &there, "site codes play no part in the list");
}

/* Site codes (document 02, T-05). Where one is above the bound the number is 4, unless the plain table has 1, 2 or 3. */
static void laws_of_sites(const struct cut *c, uint32_t fault, const struct result *whole, enum place place)
{
    static uint8_t plain[MOST_TABLE];
    int some = 0, above = 0;
    for (size_t at = 0; at + BLOCK <= c->table_len; at += BLOCK) {
        some = some || get16(c->table + at + 18) != 0;
        above = above || get16(c->table + at + 18) > MOST_SITE;
    }
    sites_met[above ? 2 : some]++;
    without_sites(plain, c->table, c->table_len);
    if (above) {
        uint32_t rest = station_line_check(lend_bytes(&tables, plain, c->table_len, place), c->table_len);
        law(fault == (1 <= rest && rest <= 3 ? rest : 4), "a site code above the bound is refused with 4");
    } else if (some) {
        same_without_sites(c, plain, whole, place);
    }
}

/* The two lasting facts (document 02, T-07), of a run answered 0: a table in line is in line again, and the list holds no exit; and the
 * station asked about may still leave, if it might and the list has no step at it. */
static void laws_of_lasting(const struct cut *c, const struct result *whole, enum place place)
{
    size_t written = (size_t)whole->ran.stations * BLOCK;
    int exits = 0, named = 0;
    if (whole->ran.answer != 0) {
        return;
    }
    for (size_t at = 0; at < c->steps_len; at += STEP) {
        exits = exits || get16(c->steps + at) == 3;
        named = named || get32(c->steps + at + 4) == c->station;
    }
    if (station_line_in_line(lend_bytes(&tables, c->table, c->table_len, place), c->table_len).yes == 1) {
        struct station_line_told again = station_line_in_line(lend_bytes(&tables, whole->bytes, written, place), written);
        law(again.answer == 0 && again.yes == 1, "a table in line is in line after a run answered 0");
        law(!exits, "a run answered 0 over a table in line holds no exit");
        lasting_met[0]++;
    }
    if (!named && leave_of(c->table, c->table_len, c->station, place).reason == STATION_LINE_MAY_LEAVE) {
        struct station_line_leave still = leave_of(whole->bytes, written, c->station, place);
        law(still.answer == 0 && still.reason == STATION_LINE_MAY_LEAVE, "who may leave still may after a run without a step at it");
        lasting_met[1]++;
    }
}

/* The list cut in two. */
static void cut_list(const struct cut *c, const struct result *whole, enum place place)
{
    static struct result first, second;
    size_t total = c->steps_len / STEP;
    size_t k = total == 0 ? 0 : (c->station / 4) % (total + 1);
    run(&first, c->table, c->table_len, c->steps, k * STEP, c->table_len, place);
    if (first.ran.answer != 0) {
        same(&first, whole, "a refusal in the first part ends the whole list");
        return;
    }
    size_t left = (size_t)first.ran.stations * BLOCK;
    run(&second, first.bytes, left, c->steps + k * STEP, (total - k) * STEP, left, place);
    second.ran.done += (uint32_t)k;
    same(&second, whole, "two parts give what the whole list gives");
}

int LLVMFuzzerTestOneInput(const uint8_t *data, size_t size)
{
    static struct result whole;
    if (tables.pages == NULL) {
        tables = area_of_bytes(MOST_TABLE);
        lists = area_of_bytes(MOST_STEPS);
        rooms = area_of_room(MOST_ROOM);
    }
    struct cut c = cut(data, size);
    enum place place = c.station % 4 == 0 ? BEFORE : BEHIND;
    uint32_t fault = station_line_check(lend_bytes(&tables, c.table, c.table_len, place), c.table_len);
    law(fault <= 7, "the check's number is one of 0 to 7");
    law((fault == 1) == (c.table_len % BLOCK != 0), "1 tells of the length");
    tell(0, fault, size_class(c.table_len / BLOCK), 0);
    walk(&c, fault, place);
    ask(&c, fault, place);
    call_roll(&c, fault, place);
    list_allowed(&c, fault, place);
    run(&whole, c.table, c.table_len, c.steps, c.steps_len, c.room_len, place);
    answers_met[whole.ran.answer]++;
    laws_of_answer(&c, fault, whole.ran.answer);
    laws_of_reason(&c, &whole, place);
    tell_run(&whole, &c);
    turn_blocks(&c, &whole, place);
    laws_of_sites(&c, fault, &whole, place);
    if (1 <= whole.ran.answer && whole.ran.answer <= 9) {
        return 0;
    }
    laws_of_lasting(&c, &whole, place);
    read_back(&whole, place);
    cut_list(&c, &whole, place);
    return 0;
}
