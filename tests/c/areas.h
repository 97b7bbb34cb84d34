/* Memory between pages that may not be touched. The archive is not instrumented, so the sanitizers see nothing of what it does; but a
 * byte that it reads or writes outside what it was handed lies on such a page, and so does a byte that it writes into a table or a step
 * list, as long as the bytes lie against that page. So each call is made once against the page behind and once against the page before. */
#ifndef AREAS_H
#define AREAS_H

#include <stddef.h>
#include <stdint.h>

/* What an untouched byte of a room, and of what lies beside it, holds. */
enum { PATTERN = 0xA5 };

/* The same memory seen twice: `pages` is handed over, not writable unless it is a room; `own` is the test's, always writable. */
struct area {
    uint8_t *pages, *own;
    size_t size;
};

/* Against which page the bytes lie; of no bytes there may also be a null pointer. */
enum place { BEHIND, BEFORE, NOWHERE };

/* An area of at least so many bytes that may be read, and one that may be written too. */
struct area area_of_bytes(size_t most);
struct area area_of_room(size_t most);

/* Where len bytes begin in the area. */
size_t area_start(const struct area *area, size_t len, enum place place);

/* Bytes as they are handed over. */
const uint8_t *lend_bytes(const struct area *area, const uint8_t *bytes, size_t len, enum place place);

/* A room of len bytes as it is handed over; it and all that lies beside it in the area holds the pattern. */
uint8_t *lend_room(const struct area *area, size_t len, enum place place);

/* Whether all the area still holds the pattern but the first `written` bytes of the room of len bytes that lies there. */
int rest_untouched(const struct area *area, size_t len, enum place place, size_t written);

#endif
