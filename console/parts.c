#include "parts.h"

#include "listing.h"
#include "snapshot.h"

void next_part(struct parts *parts) {
    (void)fputs(parts->count++ == 0 ? ": " : ", ", parts->out);
}

void put_message(struct parts *parts, struct station_line_message message) {
    (void)fputs(message_text(message.kind, message.number).text, parts->out);
}

void put_bag(struct parts *parts, const struct station_line_block *station) {
    const char *separator = "";
    for (size_t k = 0; k < station_line_bag_size(station); k++) {
        size_t many = copies(station, station->messages[k]);
        if (!is_first_copy(station, k))
            continue;
        (void)fputs(separator, parts->out);
        if (many > 1)
            (void)fprintf(parts->out, "%zu ", many);
        put_message(parts, station->messages[k]);
        separator = ", ";
    }
}
