/* include/station_line_layout.h against the archive: layout RUNS.., each RUN the start of two names, RUN.table and RUN.steps.
 *
 * What the archive writes, the helpers read and write again to the same bytes; a block that they write is accepted; a block whose
 * check word or field is put wrong is refused with 3 or 4; a step that they write is done, or refused with 10, as its fields say.
 */
#include <stdio.h>
#include <stdlib.h>
#include <string.h>

#include "station_line_layout.h"

static int wrong = 0;

static void expect(int good, const char *what, const char *of) {
    if (!good) {
        printf("%s: %s\n", of, what);
        wrong = 1;
    }
}

static size_t read_all(const char *run, const char *ending, uint8_t *bytes, size_t most) {
    char name[4096];
    snprintf(name, sizeof name, "%s%s", run, ending);
    FILE *file = fopen(name, "rb");
    if (file == NULL) {
        perror(name);
        exit(2);
    }
    size_t len = fread(bytes, 1, most, file);
    fclose(file);
    return len;
}

/* Every block that the archive writes, read and written again. */
static void circle(const char *run) {
    static uint8_t table[STATION_LINE_TABLE_BYTES + 1], steps[STATION_LINE_STEPS_BYTES + 1], room[STATION_LINE_TABLE_BYTES + 1];
    size_t table_len = read_all(run, ".table", table, sizeof table), steps_len = read_all(run, ".steps", steps, sizeof steps);
    struct station_line_ran ran = station_line_run(table, table_len, steps, steps_len, room, sizeof room);
    for (size_t k = 0; k < ran.stations; k++) {
        const uint8_t *bytes = room + STATION_LINE_BLOCK_BYTES * k;
        uint8_t again[STATION_LINE_BLOCK_BYTES];
        struct station_line_block block;
        memset(again, 255, sizeof again);
        station_line_read_block(bytes, &block);
        station_line_write_block(again, &block);
        expect(memcmp(again, bytes, sizeof again) == 0, "a block of the archive is written to other bytes", run);
        expect(block.check == station_line_check_word(bytes), "another check word", run);
    }
    for (size_t at = 0; at + STATION_LINE_STEP_BYTES <= steps_len && steps_len <= STATION_LINE_STEPS_BYTES;
         at += STATION_LINE_STEP_BYTES) {
        uint8_t again[STATION_LINE_STEP_BYTES];
        station_line_write_step(again, station_line_read_step(steps + at));
        expect(memcmp(again, steps + at, sizeof again) == 0, "a step is written to other bytes", run);
    }
}

/* Station 5, leaving, with each field set, as a table of its own. */
static struct station_line_block alone(void) {
    struct station_line_block block;
    memset(&block, 0, sizeof block);
    block.layout = 1;
    block.flags = STATION_LINE_LEAVING;
    block.station = 5;
    block.count = 3;
    block.messages[0].kind = STATION_LINE_REMOVE_RIGHT;
    block.messages[1].kind = STATION_LINE_INTRODUCTION;
    block.messages[1].number = 5;
    block.messages[2].kind = STATION_LINE_REMOVE_LEFT;
    block.messages[3].number = 77; /* past the count: not written */
    return block;
}

static uint32_t check_of(const struct station_line_block *block) {
    uint8_t bytes[STATION_LINE_BLOCK_BYTES];
    station_line_write_block(bytes, block);
    return station_line_check(bytes, sizeof bytes);
}

static void made_by_hand(void) {
    struct station_line_block block = alone();
    uint8_t bytes[STATION_LINE_BLOCK_BYTES];
    expect(check_of(&block) == STATION_LINE_DONE, "is refused", "a block made by hand");
    station_line_write_block(bytes, &block);
    bytes[510] ^= 1;
    expect(station_line_check(bytes, sizeof bytes) == STATION_LINE_CHECK_WORD, "is not refused with 3", "another check word");
    block.layout = 2;
    expect(check_of(&block) == STATION_LINE_FIELD, "is not refused with 4", "layout 2");
    block = alone(), block.flags = 2;
    expect(check_of(&block) == STATION_LINE_FIELD, "is not refused with 4", "another flag");
    block = alone(), block.site = STATION_LINE_MOST_SITE;
    expect(check_of(&block) == STATION_LINE_DONE, "is refused", "the largest site code");
    block.site++;
    expect(check_of(&block) == STATION_LINE_FIELD, "is not refused with 4", "a site code above the largest");
    block = alone(), block.messages[1].gap = 1;
    expect(check_of(&block) == STATION_LINE_FIELD, "is not refused with 4", "a gap");
    block = alone(), block.count = 33;
    expect(check_of(&block) == STATION_LINE_FIELD, "is not refused with 4", "33 messages");
    block = alone(), block.left = 7;
    expect(check_of(&block) == STATION_LINE_SIDES, "is not refused with 5", "a left above");
    block = alone(), block.right = 9;
    expect(check_of(&block) == STATION_LINE_UNKNOWN, "is not refused with 7", "a right without a block");
}

static uint32_t answer_of(struct station_line_step step) {
    struct station_line_block block = alone();
    uint8_t table[STATION_LINE_BLOCK_BYTES], steps[STATION_LINE_STEP_BYTES], room[STATION_LINE_BLOCK_BYTES];
    station_line_write_block(table, &block);
    station_line_write_step(steps, step);
    return station_line_run(table, sizeof table, steps, sizeof steps, room, sizeof room).answer;
}

static void steps_by_hand(void) {
    const struct {
        struct station_line_step step;
        uint32_t answer;
    } cases[] = {
        {{STATION_LINE_TIMEOUT, 0, 5, 0}, STATION_LINE_DONE},
        {{STATION_LINE_DELIVER, STATION_LINE_INTRODUCTION, 5, 5}, STATION_LINE_DONE},
        {{STATION_LINE_DELIVER, STATION_LINE_REMOVE_LEFT, 5, 0}, STATION_LINE_DONE},
        {{STATION_LINE_DELIVER, STATION_LINE_REMOVE_RIGHT, 5, 0}, STATION_LINE_DONE},
        {{STATION_LINE_EXIT, 0, 5, 0}, STATION_LINE_HELD},
        {{STATION_LINE_TIMEOUT, 0, STATION_LINE_MOST_NUMBER, 0}, STATION_LINE_ABSENT},
        {{STATION_LINE_DELIVER, STATION_LINE_INTRODUCTION, 5, 7}, STATION_LINE_NOT_IN_BAG},
        {{STATION_LINE_TIMEOUT, 0, STATION_LINE_MOST_NUMBER + 1, 0}, STATION_LINE_MALFORMED},
        {{STATION_LINE_TIMEOUT, 1, 5, 0}, STATION_LINE_MALFORMED},
        {{STATION_LINE_DELIVER, STATION_LINE_REMOVE_LEFT, 5, 5}, STATION_LINE_MALFORMED},
        {{STATION_LINE_EXIT + 1, 0, 5, 0}, STATION_LINE_MALFORMED},
    };
    for (size_t k = 0; k < sizeof cases / sizeof cases[0]; k++)
        expect(answer_of(cases[k].step) == cases[k].answer, "another answer", "a step made by hand");
}

int main(int argc, char **argv) {
    expect(strcmp(station_line_version(), STATION_LINE_VERSION) == 0, "is not that of the library", "the header's version");
    expect(strcmp(station_line_words(STATION_LINE_CHECK_WORD), "a check fails") == 0, "other words", "3");
    expect(strcmp(station_line_words(STATION_LINE_TOO_MANY), "more than 64 stations asked") == 0, "other words", "17");
    expect(strcmp(station_line_words(16), station_line_words(18)) != 0 &&
               strcmp(station_line_words(18), station_line_words(UINT32_MAX)) == 0,
           "no words of its own", "16");
    expect(STATION_LINE_TABLE_BYTES == STATION_LINE_MOST_STATIONS * STATION_LINE_BLOCK_BYTES, "is not so many blocks",
           "the longest table");
    expect(STATION_LINE_STEPS_BYTES == STATION_LINE_MOST_STEPS * STATION_LINE_STEP_BYTES, "is not so many steps",
           "the longest list");
    made_by_hand();
    steps_by_hand();
    for (int k = 1; k < argc; k++)
        circle(argv[k]);
    return wrong;
}
