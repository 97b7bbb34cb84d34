#define _POSIX_C_SOURCE 200809L
#include "files.h"

#include <errno.h>
#include <fcntl.h>
#include <string.h>
#include <sys/stat.h>
#include <unistd.h>

#include "station_line.h"

static bool is_standard(const char *path) {
    return strcmp(path, "-") == 0;
}

const char *name_of(const char *path) {
    return is_standard(path) ? "standard input" : path;
}

bool is_same_file(const char *path, const char *other) {
    struct stat a, b;
    if ((is_standard(path) ? fstat(STDIN_FILENO, &a) : stat(path, &a)) != 0 || stat(other, &b) != 0)
        return false;
    return S_ISREG(a.st_mode) && a.st_dev == b.st_dev && a.st_ino == b.st_ino;
}

/* Reads until the room is full or the file ends; false with errno set where a read fails. */
static bool read_whole(int file, uint8_t *bytes, size_t room, size_t *len) {
    *len = 0;
    while (*len < room) {
        ssize_t got = read(file, bytes + *len, room - *len);
        if (got < 0 && errno == EINTR)
            continue;
        if (got < 0)
            return false;
        if (got == 0)
            break;
        *len += (size_t)got;
    }
    return true;
}

static bool read_file(const char *path, uint8_t *bytes, size_t most, size_t *len, const char *too_long, struct reason *why) {
    static const char unread[] = "can't be read";
    *len = 0;
    int file = is_standard(path) ? STDIN_FILENO : open(path, O_RDONLY | O_NOCTTY | O_CLOEXEC);
    if (file < 0)
        return because(why, unread, errno);
    bool whole = read_whole(file, bytes, most + 1, len);
    int trouble = errno;
    if (!is_standard(path))
        (void)close(file); /* all was read by then */
    if (!whole || *len > most) {
        *len = 0;
        return whole ? because(why, too_long, 0) : because(why, unread, trouble);
    }
    return true;
}

bool read_table(const char *path, uint8_t *table, size_t *len, struct reason *why) {
    return read_file(path, table, STATION_LINE_TABLE_BYTES, len, "over 32,768 bytes", why);
}

bool read_steps(const char *path, uint8_t *steps, size_t *len, struct reason *why) {
    return read_file(path, steps, STATION_LINE_STEPS_BYTES, len, "over 49,152 bytes", why);
}

bool read_text(const char *path, uint8_t *text, size_t *len, struct reason *why) {
    return read_file(path, text, TEXT_BYTES, len, "over 1,048,576 bytes", why);
}
