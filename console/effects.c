#include "effects.h"

bool has_received(const struct station_line_block *before, const struct station_line_block *after,
                  struct station_line_message *message) {
    for (size_t k = 0; k < station_line_bag_size(after); k++)
        if (copies(after, after->messages[k]) > copies(before, after->messages[k])) {
            *message = after->messages[k];
            return true;
        }
    return false;
}

static void put_neighbour(struct parts *parts, const char *side, uint32_t before, uint32_t after) {
    if (before == after)
        return;
    next_part(parts);
    (void)fprintf(parts->out, "%s ", side);
    if (before == 0)
        (void)fputs("none", parts->out);
    else
        (void)fprintf(parts->out, "%u", (unsigned)before);
    if (after == 0)
        (void)fputs(" becomes none", parts->out);
    else
        (void)fprintf(parts->out, " becomes %u", (unsigned)after);
}

void put_effects(struct parts *parts, uint32_t station, const struct snapshot *before, const struct snapshot *after) {
    const struct station_line_block *was = find_station(before, station), *is = find_station(after, station);
    bool sent = false;
    if (was != NULL && is != NULL) {
        put_neighbour(parts, "left", was->left, is->left);
        put_neighbour(parts, "right", was->right, is->right);
    }
    for (size_t k = 0; k < after->count; k++) {
        const struct station_line_block *receiver = &after->stations[k], *earlier = find_station(before, receiver->station);
        struct station_line_message message;
        if (earlier == NULL || !has_received(earlier, receiver, &message))
            continue;
        sent = true;
        next_part(parts);
        put_message(parts, message);
        (void)fprintf(parts->out, " to %u", (unsigned)receiver->station);
    }
    if (!sent) {
        next_part(parts);
        (void)fputs("nothing sent", parts->out);
    }
    if (is == NULL) {
        next_part(parts);
        (void)fputs("gone", parts->out);
    }
}
