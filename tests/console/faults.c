/* Preloaded into the program under test. Counts its calls into the system and, at the call FAULT_AT (from 1), does FAULT_DO:
 *
 *   fail ERRNO      the call fails with that error and does nothing
 *   before SIGNAL   the signal comes before the call
 *   after SIGNAL    the signal comes after the call
 *   half SIGNAL     half of the bytes are written, then the signal comes; at another call than a write it comes after it
 *   short 0         half of the bytes are read or written; another call is left alone
 *   skip 0          the call does nothing and says that all is well
 *
 * With FAULT_CALL only calls of that name count. FAULT_LOG names a file that gets the name of each call. */
#define _GNU_SOURCE
#include <dlfcn.h>
#include <errno.h>
#include <fcntl.h>
#include <signal.h>
#include <stdarg.h>
#include <stdio.h>
#include <stdlib.h>
#include <string.h>
#include <sys/stat.h>
#include <sys/syscall.h>
#include <sys/types.h>
#include <sys/xattr.h>
#include <unistd.h>

enum what { NOTHING, FAIL, BEFORE, AFTER, HALF, SHORT, SKIP };

static long counted;
static int value;

static void log_call(const char *name) {
    const char *path = getenv("FAULT_LOG");
    if (path == NULL)
        return;
    long file = syscall(SYS_openat, AT_FDCWD, path, O_WRONLY | O_CREAT | O_APPEND, 0666);
    (void)syscall(SYS_write, file, name, strlen(name));
    (void)syscall(SYS_write, file, "\n", 1);
    (void)syscall(SYS_close, file);
}

/* What is to be done at this call; the signal that comes before it has come. */
static enum what meet(const char *name) {
    static const char *const words[] = {"", "fail", "before", "after", "half", "short", "skip"};
    const char *at = getenv("FAULT_AT"), *what = getenv("FAULT_DO"), *only = getenv("FAULT_CALL");
    char word[16] = "";
    log_call(name);
    if (only != NULL && strcmp(only, name) != 0)
        return NOTHING;
    counted++;
    if (at == NULL || what == NULL || atol(at) != counted || sscanf(what, "%15s %d", word, &value) != 2)
        return NOTHING;
    for (enum what k = FAIL; k <= SKIP; k++)
        if (strcmp(word, words[k]) == 0) {
            if (k == BEFORE)
                (void)kill(getpid(), value);
            return k;
        }
    return NOTHING;
}

/* The signal that comes after the call. */
static void leave(enum what what) {
    int first = errno;
    if (what == AFTER || what == HALF)
        (void)kill(getpid(), value);
    errno = first;
}

#define WRAP(result, name, parameters, arguments)                                                                                \
    result name parameters {                                                                                                     \
        result(*next) parameters;                                                                                                \
        *(void **)&next = dlsym(RTLD_NEXT, #name);                                                                               \
        enum what what = meet(#name);                                                                                            \
        if (what == FAIL) {                                                                                                      \
            errno = value;                                                                                                       \
            return (result)-1;                                                                                                   \
        }                                                                                                                        \
        if (what == SKIP)                                                                                                        \
            return 0;                                                                                                            \
        result got = next arguments;                                                                                             \
        leave(what);                                                                                                             \
        return got;                                                                                                              \
    }

WRAP(int, close, (int file), (file))
WRAP(int, fsync, (int file), (file))
WRAP(int, fchown, (int file, uid_t user, gid_t group), (file, user, group))
WRAP(int, fchmod, (int file, mode_t mode), (file, mode))
WRAP(int, renameat, (int a, const char *from, int b, const char *to), (a, from, b, to))
WRAP(int, unlinkat, (int folder, const char *name, int flags), (folder, name, flags))
WRAP(int, stat, (const char *restrict path, struct stat *restrict into), (path, into))
WRAP(int, lstat, (const char *restrict path, struct stat *restrict into), (path, into))
WRAP(int, fstat, (int file, struct stat *into), (file, into))
WRAP(int, fremovexattr, (int file, const char *name), (file, name))
WRAP(ssize_t, flistxattr, (int file, char *names, size_t size), (file, names, size))
WRAP(ssize_t, fgetxattr, (int file, const char *name, void *bytes, size_t size), (file, name, bytes, size))
WRAP(int, fsetxattr, (int file, const char *name, const void *bytes, size_t size, int flags), (file, name, bytes, size, flags))
WRAP(int, sigprocmask, (int how, const sigset_t *restrict set, sigset_t *restrict old), (how, set, old))
WRAP(int, sigaction, (int number, const struct sigaction *restrict act, struct sigaction *restrict old), (number, act, old))

#define WRAP_BYTES(name, parameters, arguments, half_arguments)                                                                  \
    ssize_t name parameters {                                                                                                    \
        ssize_t(*next) parameters;                                                                                               \
        *(void **)&next = dlsym(RTLD_NEXT, #name);                                                                               \
        enum what what = meet(#name);                                                                                            \
        if (what == FAIL) {                                                                                                      \
            errno = value;                                                                                                       \
            return -1;                                                                                                           \
        }                                                                                                                        \
        ssize_t got = (what == HALF || what == SHORT) && len > 1 ? next half_arguments : next arguments;                         \
        leave(what);                                                                                                             \
        return got;                                                                                                              \
    }

WRAP_BYTES(write, (int file, const void *bytes, size_t len), (file, bytes, len), (file, bytes, len / 2))
WRAP_BYTES(read, (int file, void *bytes, size_t len), (file, bytes, len), (file, bytes, len / 2))

#define WRAP_OPEN(name, parameters, arguments)                                                                                   \
    int name parameters {                                                                                                        \
        int(*next) parameters;                                                                                                   \
        *(void **)&next = dlsym(RTLD_NEXT, #name);                                                                               \
        va_list more;                                                                                                            \
        va_start(more, flags);                                                                                                   \
        mode_t mode = (flags & O_CREAT) != 0 ? va_arg(more, mode_t) : 0;                                                         \
        va_end(more);                                                                                                            \
        enum what what = meet(#name);                                                                                            \
        if (what == FAIL) {                                                                                                      \
            errno = value;                                                                                                       \
            return -1;                                                                                                           \
        }                                                                                                                        \
        int got = next arguments;                                                                                                \
        leave(what);                                                                                                             \
        return got;                                                                                                              \
    }

WRAP_OPEN(open, (const char *path, int flags, ...), (path, flags, mode))
WRAP_OPEN(openat, (int folder, const char *path, int flags, ...), (folder, path, flags, mode))
