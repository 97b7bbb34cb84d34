#include "listing.h"

struct message_text message_text(uint16_t kind, uint32_t number) {
    struct message_text text;
    if (kind == STATION_LINE_INTRODUCTION)
        (void)snprintf(text.text, sizeof text.text, "i%u", (unsigned)number);
    else if (kind == STATION_LINE_REMOVE_LEFT || kind == STATION_LINE_REMOVE_RIGHT)
        (void)snprintf(text.text, sizeof text.text, "%s", kind == STATION_LINE_REMOVE_LEFT ? "l" : "r");
    else /* in no accepted table */
        (void)snprintf(text.text, sizeof text.text, "?%u:%u", (unsigned)kind, (unsigned)number);
    return text;
}

static void print_neighbour(FILE *out, uint32_t neighbour) {
    if (neighbour == 0)
        (void)fputs(" -", out);
    else
        (void)fprintf(out, " %u", (unsigned)neighbour);
}

void print_station(FILE *out, const struct station_line_block *block) {
    (void)fprintf(out, "%u", (unsigned)block->station);
    print_neighbour(out, block->left);
    print_neighbour(out, block->right);
    (void)fputs((block->flags & STATION_LINE_LEAVING) != 0 ? " leave" : " stay", out);
    for (size_t k = 0; k < station_line_bag_size(block); k++)
        (void)fprintf(out, " %s", message_text(block->messages[k].kind, block->messages[k].number).text);
    if (block->site != 0)
        (void)fprintf(out, " @%u", (unsigned)block->site);
    (void)fputc('\n', out);
}

struct step_text step_text(struct station_line_step step) {
    struct step_text text;
    const char *action = step.action == STATION_LINE_TIMEOUT   ? "timeout"
                         : step.action == STATION_LINE_DELIVER ? "deliver"
                                                               : "exit";
    if (step.action == STATION_LINE_DELIVER)
        (void)snprintf(text.text, sizeof text.text, "%s %u %s", action, (unsigned)step.station,
                       message_text(step.kind, step.number).text);
    else
        (void)snprintf(text.text, sizeof text.text, "%s %u", action, (unsigned)step.station);
    return text;
}

struct step_text malformed_text(struct station_line_step step) {
    struct step_text text;
    (void)snprintf(text.text, sizeof text.text, "action %u, kind %u, station %u, number %u", (unsigned)step.action,
                   (unsigned)step.kind, (unsigned)step.station, (unsigned)step.number);
    return text;
}

struct leave_text leave_text(uint32_t reason, uint32_t holder) {
    struct leave_text text = {""};
    if (reason == STATION_LINE_HELD_BY)
        (void)snprintf(text.text, sizeof text.text, "held-by %u", (unsigned)holder);
    else if (reason == STATION_LINE_MAY_LEAVE || reason == STATION_LINE_OWN_BAG)
        (void)snprintf(text.text, sizeof text.text, "%s", reason == STATION_LINE_MAY_LEAVE ? "yes" : "bag");
    return text;
}

void print_answer(FILE *out, struct station_line_ran ran) {
    (void)fprintf(out, "answer %u done %u stations %u", (unsigned)ran.answer, (unsigned)ran.done, (unsigned)ran.stations);
    if (ran.reason != STATION_LINE_NO_REASON)
        (void)fprintf(out, " %s", leave_text(ran.reason, ran.holder).text);
    (void)fputc('\n', out);
}

static void print_block(FILE *out, const uint8_t *bytes) {
    struct station_line_block block;
    station_line_read_block(bytes, &block);
    print_station(out, &block);
}

void print_walk(FILE *out, struct walk *walk) {
    for (const uint8_t *block = walk_next(walk); block != NULL; block = walk_next(walk))
        print_block(out, block);
}
