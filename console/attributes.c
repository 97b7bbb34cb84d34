#include "attributes.h"

#ifdef __linux__

#include <errno.h>
#include <stdlib.h>
#include <string.h>
#include <sys/xattr.h>

static const char access_list[] = "system.posix_acl_access";

/* A file without one, or a file system that knows none. */
static bool none_there(void) {
    return errno == ENODATA || errno == EOPNOTSUPP;
}

static bool free_after(void *bytes, bool good) {
    int first = errno;
    free(bytes);
    errno = first;
    return good;
}

/* Access lists of every kind are attributes of the system. */
static bool is_kept(const char *name) {
    return strncmp(name, "system.", 7) == 0 || strncmp(name, "user.", 5) == 0;
}

static bool keep_one(int new_file, int old_file, const char *name) {
    ssize_t room = fgetxattr(old_file, name, NULL, 0);
    if (room < 0)
        return false;
    char *value = malloc((size_t)room + 1);
    if (value == NULL)
        return false;
    ssize_t len = fgetxattr(old_file, name, value, (size_t)room);
    return free_after(value, len >= 0 && fsetxattr(new_file, name, value, (size_t)len, 0) == 0);
}

/* The names stand one behind the other, each with its end. */
static bool keep_named(int new_file, int old_file, const char *names, size_t len) {
    for (size_t at = 0; at < len; at += strlen(names + at) + 1)
        if (is_kept(names + at) && !keep_one(new_file, old_file, names + at))
            return false;
    return true;
}

bool keep_attributes(int new_file, int old_file) {
    if (fremovexattr(new_file, access_list) != 0 && !none_there())
        return false;
    ssize_t room = flistxattr(old_file, NULL, 0);
    if (room <= 0)
        return room == 0 || none_there();
    char *names = malloc((size_t)room + 1);
    if (names == NULL)
        return false;
    ssize_t len = flistxattr(old_file, names, (size_t)room);
    names[len > 0 ? len : 0] = '\0';
    return free_after(names, len >= 0 && keep_named(new_file, old_file, names, (size_t)len));
}

#else

bool keep_attributes(int new_file, int old_file) {
    (void)new_file;
    (void)old_file;
    return true;
}

#endif
