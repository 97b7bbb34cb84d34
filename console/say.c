#include "say.h"

#include <errno.h>
#include <stdarg.h>
#include <stdio.h>
#include <string.h>

#include "escape.h"
#include "station_line.h"

/* Standard error is the last resort, so what a print to it returns is not looked at. */

/* A stream keeps the mark of any print that failed. */
bool results_are_out(void) {
    static bool failed = false;
    if (failed)
        return false;
    const char *why = fflush(stdout) != 0 ? strerror(errno) : ferror(stdout) ? "not all was written" : NULL;
    failed = why != NULL;
    if (failed)
        (void)fprintf(stderr, "station-line: standard output: %s\n", why);
    return !failed;
}

static void begin(const char *name) {
    (void)results_are_out();
    (void)fputs("station-line: ", stderr);
    put_escaped(stderr, name, strlen(name));
    (void)fputs(": ", stderr);
}

static void begin_at(const char *name, size_t line, size_t column) {
    (void)results_are_out();
    put_escaped(stderr, name, strlen(name));
    (void)fprintf(stderr, ":%zu:%zu: ", line, column);
}

static void put_number(uint32_t number) {
    (void)fprintf(stderr, "%u: %s", (unsigned)number, station_line_words(number));
}

static void put_reason(struct reason why) {
    (void)fputs(why.what, stderr);
    if (why.error != 0)
        (void)fprintf(stderr, ": %s", strerror(why.error));
    (void)fputc('\n', stderr);
}

void say_refusal(const char *name, uint32_t number) {
    begin(name);
    put_number(number);
    (void)fputc('\n', stderr);
}

void say_refusal_with(const char *name, uint32_t number, const char *format, ...) {
    va_list values;
    begin(name);
    put_number(number);
    (void)fputs(" (", stderr);
    va_start(values, format);
    (void)vfprintf(stderr, format, values);
    va_end(values);
    (void)fputs(")\n", stderr);
}

void say_refusal_at(const char *name, size_t line, size_t column, uint32_t number) {
    begin_at(name, line, column);
    put_number(number);
    (void)fputc('\n', stderr);
}

void say_unreadable(const char *name, struct reason why) {
    begin(name);
    (void)fprintf(stderr, "%u: ", (unsigned)UNREADABLE);
    put_reason(why);
}

void say_trouble(const char *name, const char *format, ...) {
    va_list values;
    begin(name);
    va_start(values, format);
    (void)vfprintf(stderr, format, values);
    va_end(values);
    (void)fputc('\n', stderr);
}

void say_reason(const char *name, const char *words, struct reason why) {
    begin(name);
    (void)fprintf(stderr, "%s: ", words);
    put_reason(why);
}

void say_word_at(const char *name, size_t line, size_t column, const char *word, size_t len, const char *wrong) {
    const size_t most = 40;
    begin_at(name, line, column);
    if (len == 0) {
        (void)fprintf(stderr, "the line ends early: %s\n", wrong);
        return;
    }
    (void)fputc('\'', stderr);
    put_escaped(stderr, word, len < most ? len : most);
    (void)fprintf(stderr, "%s': %s\n", len > most ? "..." : "", wrong);
}

int say_wrong_use(const char *command, const char *word, const char *format, ...) {
    va_list values;
    begin(word);
    va_start(values, format);
    (void)vfprintf(stderr, format, values);
    va_end(values);
    (void)fprintf(stderr, "; see 'station-line %s%s--help'\n", command != NULL ? command : "", command != NULL ? " " : "");
    return TROUBLE;
}
