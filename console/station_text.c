#include "station_text.h"

static const char not_a_number[] = "a station number is expected, 1 to 999,999";
static const char not_a_neighbour[] = "a neighbour is expected, 1 to 999,999 or '-' for none";
static const char not_a_mark[] = "'stay' or 'leave' is expected";
static const char not_a_message[] = "a message is expected: 'i' with a number from 1 to 999,999, 'l' or 'r'";
static const char not_a_site[] = "a site code is expected: '@' with a number from 0 to 9,999";
static const char not_an_action[] = "'timeout', 'deliver' or 'exit' is expected";

/* 1 to 999,999 */
static bool station_number(const char *bytes, size_t len, uint32_t *value) {
    return read_number(bytes, len, value) && *value >= 1 && *value <= STATION_LINE_MOST_NUMBER;
}

static bool number_word(struct line *line, uint32_t *value) {
    struct word word;
    if (!next_word(line, &word) || !station_number(word.bytes, word.len, value))
        return fault(line, word, not_a_number);
    return true;
}

static bool neighbour_word(struct line *line, uint32_t *value) {
    struct word word;
    bool there = next_word(line, &word);
    if (there && word_is(word, "-")) {
        *value = 0;
        return true;
    }
    if (!there || !station_number(word.bytes, word.len, value))
        return fault(line, word, not_a_neighbour);
    return true;
}

static bool mark_word(struct line *line, uint16_t *flags) {
    struct word word;
    bool there = next_word(line, &word), leaving = there && word_is(word, "leave");
    *flags = leaving ? STATION_LINE_LEAVING : 0;
    if (!leaving && !(there && word_is(word, "stay")))
        return fault(line, word, not_a_mark);
    return true;
}

static bool message_of(struct word word, uint16_t *kind, uint32_t *number) {
    *kind = 0;
    *number = 0;
    if (word_is(word, "l"))
        *kind = STATION_LINE_REMOVE_LEFT;
    else if (word_is(word, "r"))
        *kind = STATION_LINE_REMOVE_RIGHT;
    else if (word.len > 1 && word.bytes[0] == 'i' && station_number(word.bytes + 1, word.len - 1, number))
        *kind = STATION_LINE_INTRODUCTION;
    return *kind != 0;
}

/* The messages, up to the end of the line or to the word of the site code. */
static bool message_words(struct line *line, struct station_line_block *block, struct word *word) {
    for (; next_word(line, word) && word->bytes[0] != '@'; block->count++) {
        if (block->count == STATION_LINE_MOST_MESSAGES)
            return fault(line, *word, "a bag holds at most 32 messages");
        if (!message_of(*word, &block->messages[block->count].kind, &block->messages[block->count].number))
            return fault(line, *word, not_a_message);
    }
    return true;
}

/* "its code at the end as one word, `@` with the number" (document 02, T-05); 0 is none, as if the word were not there. */
static bool site_word(struct line *line, struct word word, uint16_t *site) {
    uint32_t value;
    if (!read_number(word.bytes + 1, word.len - 1, &value) || value > STATION_LINE_MOST_SITE)
        return fault(line, word, not_a_site);
    *site = (uint16_t)value;
    if (next_word(line, &word))
        return fault(line, word, "the site code is the last word of its line");
    return true;
}

bool read_station_line(struct line line, struct station_line_block *block) {
    *block = (struct station_line_block){.layout = 1};
    struct word word;
    if (!number_word(&line, &block->station) || !neighbour_word(&line, &block->left) || !neighbour_word(&line, &block->right) ||
        !mark_word(&line, &block->flags) || !message_words(&line, block, &word))
        return false;
    return word.len == 0 || site_word(&line, word, &block->site);
}

static uint16_t action_of(struct word word) {
    return word_is(word, "timeout")   ? STATION_LINE_TIMEOUT
           : word_is(word, "deliver") ? STATION_LINE_DELIVER
           : word_is(word, "exit")    ? STATION_LINE_EXIT
                                      : 0;
}

bool read_step_line(struct line line, struct station_line_step *step) {
    struct word word;
    *step = (struct station_line_step){0, 0, 0, 0};
    if (next_word(&line, &word)) /* every line that is handed over has a word */
        step->action = action_of(word);
    if (step->action == 0)
        return fault(&line, word, not_an_action);
    if (!number_word(&line, &step->station))
        return false;
    if (step->action == STATION_LINE_DELIVER && (!next_word(&line, &word) || !message_of(word, &step->kind, &step->number)))
        return fault(&line, word, not_a_message);
    if (next_word(&line, &word))
        return fault(&line, word, "the step is already whole");
    return true;
}

static bool present(uint32_t number, const struct station_line_block *stations, size_t count) {
    for (size_t k = 0; k < count; k++)
        if (stations[k].station == number)
            return true;
    return false;
}

/* Whether a word is at fault: the station's own number (word 0), its left (1), its right (2) or a message (4 and on). A name of 0
 * is none, as that of the mark and of the site code. */
static bool at_fault(uint32_t number, size_t word, uint32_t name, const struct station_line_block *stations, size_t count,
                     size_t before) {
    uint32_t own = stations[before].station;
    if (number == STATION_LINE_SIDES)
        return name != 0 && ((word == 1 && name >= own) || (word == 2 && name <= own));
    if (number == STATION_LINE_TWICE)
        return word == 0 && present(name, stations, before);
    return number == STATION_LINE_UNKNOWN && name != 0 && !present(name, stations, count);
}

bool find_fault(uint32_t number, struct line line, const struct station_line_block *stations, size_t count, size_t before,
                struct word *word) {
    const struct station_line_block *own = &stations[before];
    for (size_t k = 0; next_word(&line, word); k++) {
        uint32_t name = k == 0   ? own->station
                        : k == 1 ? own->left
                        : k == 2 ? own->right
                        : k == 3 || k - 4 >= own->count ? 0
                                                        : own->messages[k - 4].number;
        if (at_fault(number, k, name, stations, count, before))
            return true;
    }
    return false;
}
