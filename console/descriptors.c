#define _POSIX_C_SOURCE 200809L
#include "descriptors.h"

#include <errno.h>
#include <fcntl.h>
#include <signal.h>
#include <unistd.h>

bool write_whole(int file, const uint8_t *bytes, size_t len) {
    size_t done = 0;
    while (done < len) {
        ssize_t put = write(file, bytes + done, len - done);
        if (put < 0 && errno == EINTR)
            continue;
        if (put < 0)
            return false;
        done += (size_t)put;
    }
    return true;
}

bool write_to_reader(int file, const uint8_t *bytes, size_t len) {
    struct sigaction ignored = {0}, before;
    ignored.sa_handler = SIG_IGN;
    bool changed = sigaction(SIGPIPE, &ignored, &before) == 0, good = write_whole(file, bytes, len);
    int first = errno;
    if (changed)
        (void)sigaction(SIGPIPE, &before, NULL);
    errno = first;
    return good;
}

bool close_after(int file, bool good) {
    int first = errno;
    bool closed = close(file) == 0;
    if (!good)
        errno = first;
    return good && closed;
}

static bool is_null_device(const struct stat *file) {
    struct stat null;
    return S_ISCHR(file->st_mode) && stat("/dev/null", &null) == 0 && S_ISCHR(null.st_mode) && null.st_rdev == file->st_rdev;
}

static bool is_open_as(int place, const struct stat *file) {
    struct stat open_there;
    return fstat(place, &open_there) == 0 && open_there.st_dev == file->st_dev && open_there.st_ino == file->st_ino;
}

const char *standard_name(const struct stat *file) {
    if (is_null_device(file))
        return NULL;
    if (is_open_as(STDOUT_FILENO, file))
        return "standard output";
    return is_open_as(STDERR_FILENO, file) ? "standard error" : NULL;
}

/* The lowest free place is the one that is taken, so the three are looked at in turn. */
void hold_standard_places(void) {
    for (int place = STDIN_FILENO; place <= STDERR_FILENO; place++)
        if (fcntl(place, F_GETFD) < 0 && errno == EBADF)
            (void)open("/dev/null", place == STDIN_FILENO ? O_WRONLY : O_RDONLY);
}
