#include "text.h"

#include <string.h>

#include "say.h"

/* The return of a line that ends in CR LF counts as a blank. */
static bool blank(char c) {
    return c == ' ' || c == '\t' || c == '\r';
}

static bool holds_words(struct line line) {
    struct word word;
    return next_word(&line, &word) && word.bytes[0] != '#';
}

bool next_line(struct text *text, struct line *line) {
    while (text->at < text->len) {
        const char *start = text->bytes + text->at;
        const char *end = memchr(start, '\n', text->len - text->at);
        size_t len = end != NULL ? (size_t)(end - start) : text->len - text->at;
        text->at += len + (end != NULL ? 1 : 0);
        text->lines++;
        *line = (struct line){text->name, start, len, 0, text->lines};
        if (holds_words(*line))
            return true;
    }
    return false;
}

bool next_word(struct line *line, struct word *word) {
    size_t end_of_last = line->at;
    while (line->at < line->len && blank(line->bytes[line->at]))
        line->at++;
    if (line->at == line->len) {
        *word = (struct word){line->bytes + line->len, 0, end_of_last + 1};
        return false;
    }
    size_t start = line->at;
    while (line->at < line->len && !blank(line->bytes[line->at]))
        line->at++;
    *word = (struct word){line->bytes + start, line->at - start, start + 1};
    return true;
}

bool word_is(struct word word, const char *wanted) {
    return strlen(wanted) == word.len && memcmp(word.bytes, wanted, word.len) == 0;
}

bool read_number(const char *bytes, size_t len, uint32_t *value) {
    uint64_t sum = 0;
    for (size_t i = 0; i < len; i++) {
        if (bytes[i] < '0' || bytes[i] > '9')
            return false;
        sum = 10 * sum + (uint64_t)(bytes[i] - '0');
        if (sum > UINT32_MAX)
            sum = UINT32_MAX;
    }
    *value = (uint32_t)sum;
    return len > 0;
}

bool fault(const struct line *line, struct word word, const char *wrong) {
    say_word_at(line->name, line->number, word.column, word.bytes, word.len, wrong);
    return false;
}
