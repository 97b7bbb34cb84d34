#include "escape.h"

#include <stdbool.h>
#include <stdint.h>

/* The bytes of a character of UTF-8 by its first byte; 0 for a byte that begins none. */
static size_t length_of(unsigned char first) {
    return first < 0x80 ? 1 : first < 0xc2 ? 0 : first < 0xe0 ? 2 : first < 0xf0 ? 3 : first < 0xf5 ? 4 : 0;
}

/* The character at the start of the bytes and its length, which is 0 where no whole character of UTF-8 stands there: one too
 * short for its bytes, past the last one or half of a pair is none. */
static size_t decode(const unsigned char *bytes, size_t len, uint32_t *character) {
    static const uint32_t least[] = {0, 0, 0x80, 0x800, 0x10000};
    size_t wanted = length_of(bytes[0]);
    if (wanted == 0 || wanted > len)
        return 0;
    *character = wanted == 1 ? bytes[0] : bytes[0] & (0x7fu >> wanted);
    for (size_t k = 1; k < wanted; k++) {
        if ((bytes[k] & 0xc0u) != 0x80u)
            return 0;
        *character = *character << 6 | (bytes[k] & 0x3fu);
    }
    bool half = *character >= 0xd800 && *character <= 0xdfff;
    return *character < least[wanted] || *character > 0x10ffff || half ? 0 : wanted;
}

/* Controls, line and paragraph separators, and marks that are not seen or turn the direction of the text. */
static bool is_control(uint32_t c) {
    return c < 0x20 || (c >= 0x7f && c <= 0x9f) || (c >= 0x200b && c <= 0x200f) || (c >= 0x2028 && c <= 0x202e) ||
           (c >= 0x2060 && c <= 0x206f) || c == 0xfeff;
}

void put_escaped(FILE *out, const char *bytes, size_t len) {
    const unsigned char *at = (const unsigned char *)bytes;
    while (len > 0) {
        uint32_t character = 0;
        size_t whole = decode(at, len, &character), used = whole > 0 ? whole : 1;
        if (whole == 0 || is_control(character))
            for (size_t k = 0; k < used; k++)
                (void)fprintf(out, "\\x%02x", (unsigned)at[k]);
        else if (character == '\\')
            (void)fputs("\\\\", out);
        else
            (void)fwrite(at, 1, used, out);
        at += used;
        len -= used;
    }
}
