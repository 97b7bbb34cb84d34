#define _POSIX_C_SOURCE 200809L
#include "dress.h"

#include <errno.h>
#include <sys/stat.h>
#include <unistd.h>

#include "attributes.h"

/* What of the mode is kept: who may do what, and the three special bits. */
static mode_t permissions(const struct stat *file) {
    return file->st_mode & 07777;
}

static bool same_owner(const struct stat *a, const struct stat *b) {
    return a->st_uid == b->st_uid && a->st_gid == b->st_gid;
}

/* A system may pass over a part of what it is asked for, so it is looked at in the end. */
static bool is_dressed(int file, const struct stat *old) {
    struct stat now;
    return fstat(file, &now) == 0 && same_owner(&now, old) && permissions(&now) == permissions(old);
}

/* The access list comes before the mode: until it stands, the group's part of the mode would mean the whole group. */
bool dress(int new_file, int old_file, struct reason *why) {
    struct stat now, old;
    if (fstat(new_file, &now) != 0 || fstat(old_file, &old) != 0)
        return because(why, "its owner and mode can't be read", errno);
    if (!same_owner(&now, &old) && fchown(new_file, old.st_uid, old.st_gid) != 0)
        return because(why, "its owner and group can't be kept", errno);
    if (!keep_attributes(new_file, old_file))
        return because(why, "its access list and attributes can't be kept", errno);
    if (fchmod(new_file, permissions(&old)) != 0)
        return because(why, "its mode can't be kept", errno);
    if (!is_dressed(new_file, &old))
        return because(why, "its owner, group and mode can't be kept", 0);
    return true;
}
