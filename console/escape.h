/* Names and words of others, printed so that they can't be taken for anything else. */
#ifndef ESCAPE_H
#define ESCAPE_H

#include <stddef.h>
#include <stdio.h>

/* Text in UTF-8 as it is; control characters, characters that turn the direction of the text, and bytes that are no UTF-8 as
 * `\x1b`; a backslash as two. */
void put_escaped(FILE *out, const char *bytes, size_t len);

#endif
