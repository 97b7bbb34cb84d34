/* What the program says on standard error, a line each: `station-line: NAME: WORDS`, or `NAME:LINE:COLUMN: WORDS` of a place in a
 * text. Names are escaped. Results printed before come first, also where both streams go to one file. */
#ifndef SAY_H
#define SAY_H

#include <stdbool.h>
#include <stddef.h>
#include <stdint.h>

#include "reason.h"

#ifdef __GNUC__
#define LIKE_PRINTF(words, values) __attribute__((format(printf, words, values)))
#else
#define LIKE_PRINTF(words, values)
#endif

/* "program only: a file can't be read, or is over 32,768 (table) or 49,152 (steps) bytes" */
enum { UNREADABLE = 16 };

/* The exit status: done, accepted or yes; any other answer; wrong use or trouble with a file. */
enum { DONE = 0, OTHER = 1, TROUBLE = 2 };

/* The number of a refusal and its words (document 01, "The numbers a crew may see"), as in `station-line: table.bin: 3: a check
 * fails`. */
void say_refusal(const char *name, uint32_t number);

/* The same, with more in brackets behind it. */
void say_refusal_with(const char *name, uint32_t number, const char *format, ...) LIKE_PRINTF(3, 4);

/* The same at a place of a text. */
void say_refusal_at(const char *name, size_t line, size_t column, uint32_t number);

/* 16, with why the file can't be read. */
void say_unreadable(const char *name, struct reason why);

/* The words alone. */
void say_trouble(const char *name, const char *format, ...) LIKE_PRINTF(2, 3);

/* The words and then the reason, with the system's own words where it has some. */
void say_reason(const char *name, const char *words, struct reason why);

/* At a place of a text: the word there, cut where it is long, and what is wrong with it; with no word the line ends early. */
void say_word_at(const char *name, size_t line, size_t column, const char *word, size_t len, const char *wrong);

/* Wrong use: the bad word or option, what is wrong with it, and where help is; `command` is null before one is known. Gives the
 * exit status. */
int say_wrong_use(const char *command, const char *word, const char *format, ...) LIKE_PRINTF(3, 4);

/* Whether all that was printed to standard output so far has gone out; says so, once, where it has not. */
bool results_are_out(void);

#endif
