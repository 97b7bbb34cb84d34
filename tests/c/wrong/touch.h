/* What the stand-in does wrong where the environment's WRONG says so (touch.c). */
#ifndef TOUCH_H
#define TOUCH_H

#include <stddef.h>
#include <stdint.h>

/* Touches a byte of these, or beside them; the byte inside is the first one that is not to be touched. */
void touch(const char *function, const char *what, const uint8_t *at, size_t len, size_t inside);

/* Puts the last reason and holder in the place of none. */
void keep_reason(const char *function, uint32_t *reason, uint32_t *holder);

#endif
