#include "trace.h"

#include "effects.h"
#include "listing.h"
#include "missing.h"

/* The table between two steps, as bytes and taken apart. */
struct state {
    uint8_t table[STATION_LINE_TABLE_BYTES];
    struct snapshot snapshot;
};

static void print_step(FILE *out, size_t place, struct station_line_step step, uint32_t number) {
    bool malformed = number == STATION_LINE_MALFORMED;
    (void)fprintf(out, "%zu %s", place, (malformed ? malformed_text(step) : step_text(step)).text);
    if (number != STATION_LINE_DONE)
        (void)fprintf(out, ": refused with %u, %s", (unsigned)number, station_line_words(number));
}

/* Does one step and prints its line; false where it is refused. */
static bool trace_step(FILE *out, size_t place, const uint8_t *bytes, const struct state *before, struct state *after) {
    struct station_line_step step = station_line_read_step(bytes);
    size_t len = STATION_LINE_BLOCK_BYTES * before->snapshot.count;
    struct station_line_ran ran = station_line_run(before->table, len, bytes, STATION_LINE_STEP_BYTES, after->table, len);
    struct parts parts = {out, 0};
    take_snapshot(&after->snapshot, after->table, ran.stations);
    print_step(out, place, step, ran.answer);
    if (ran.answer == STATION_LINE_DONE)
        put_effects(&parts, step.station, &before->snapshot, &after->snapshot);
    else
        put_missing(&parts, ran.answer, step, &before->snapshot);
    (void)fputc('\n', out);
    return ran.answer == STATION_LINE_DONE;
}

void print_trace(FILE *out, const uint8_t *table, size_t table_len, const uint8_t *steps, size_t steps_len) {
    struct state states[2];
    /* In written order, so that who holds a station is told by rising number and the first is the reason of the listing. */
    struct station_line_ran none = station_line_run(table, table_len, NULL, 0, states[0].table, table_len);
    take_snapshot(&states[0].snapshot, states[0].table, none.stations);
    for (size_t k = 0; k < steps_len / STATION_LINE_STEP_BYTES; k++)
        if (!trace_step(out, k + 1, steps + STATION_LINE_STEP_BYTES * k, &states[k % 2], &states[(k + 1) % 2]))
            return;
}
