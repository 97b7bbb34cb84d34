/* Text taken apart into lines and words, each with its place, for `assemble`. Words are parted by spaces or tabs; columns are
 * counted in bytes from 1. An empty line or one whose first word starts with `#` holds no words. */
#ifndef TEXT_H
#define TEXT_H

#include <stdbool.h>
#include <stddef.h>
#include <stdint.h>

struct text {
    const char *name; /* of the file, for what is said of it */
    const char *bytes;
    size_t len, at, lines;
};

struct line {
    const char *name, *bytes;
    size_t len, at, number;
};

struct word {
    const char *bytes;
    size_t len, column;
};

/* The next line that holds words; false at the end of the text. */
bool next_line(struct text *text, struct line *line);

/* The next word; at the end of the line false, with the column where a word would stand. */
bool next_word(struct line *line, struct word *word);

bool word_is(struct word word, const char *wanted);

/* Digits alone as a number; one of more than 32 bits becomes the largest of 32 bits, which no station has. False for other bytes.
 * */
bool read_number(const char *bytes, size_t len, uint32_t *value);

/* Says where, what the word is, and what is wrong with it; always gives false. */
bool fault(const struct line *line, struct word word, const char *wrong);

#endif
