#define _XOPEN_SOURCE 700 /* POSIX 2008 with realpath */
#include "save.h"

#include <errno.h>
#include <fcntl.h>
#include <stdlib.h>
#include <string.h>
#include <sys/stat.h>
#include <unistd.h>

#include "descriptors.h"
#include "dress.h"
#include "say.h"
#include "temporary.h"

/* What is to be written, and the file that is replaced, open, or -1 where there is none. */
struct content {
    const uint8_t *bytes;
    size_t len;
    int old;
};

static enum saved unsaved(struct reason *why, const char *what, int error) {
    (void)because(why, what, error);
    return UNSAVED;
}

static bool fill(int file, struct content content, struct reason *why) {
    if (!write_whole(file, content.bytes, content.len))
        return because(why, "the new file can't be written", errno);
    if (content.old >= 0 && !dress(file, content.old, why))
        return false;
    if (fsync(file) != 0)
        return because(why, "the new file can't be synced", errno);
    return true;
}

/* The new name lasts through a power cut only when the folder is synced as well. A file system that syncs no folders has its own
 * way. */
static bool sync_folder(int folder, struct reason *why) {
    if (fsync(folder) == 0 || errno == EINVAL)
        return true;
    return because(why, "its folder can't be synced", errno);
}

static enum saved replace_in(int folder, const char *name, struct content content, struct reason *why) {
    struct temporary temporary;
    if (!temporary_make(&temporary, folder, content.old < 0 ? 0666 : 0600))
        return unsaved(why, "no new file can be made beside it", errno);
    bool good = fill(temporary.file, content, why);
    if (!close_after(temporary.file, good) && good)
        good = because(why, "the new file can't be closed", errno);
    if (good && !temporary_rename(&temporary, name))
        good = because(why, errno == EBUSY ? "it can't be replaced (is it a mount point?)" : "it can't be replaced", errno);
    if (good)
        return sync_folder(folder, why) ? SAVED : UNSYNCED;
    if (!temporary_drop(&temporary))
        say_reason(temporary.name, "left behind", (struct reason){"it can't be removed", errno});
    return UNSAVED;
}

/* The folder is what stands before the last slash. A path that ends in one names no file. */
static enum saved replace(const char *path, struct content content, struct reason *why) {
    const char *slash = strrchr(path, '/'), *name = slash != NULL ? slash + 1 : path;
    if (name[0] == '\0')
        return unsaved(why, "it is no file's name", 0);
    char *folder_path = slash == NULL ? strdup(".") : strndup(path, slash == path ? 1 : (size_t)(slash - path));
    if (folder_path == NULL)
        return unsaved(why, "no memory is left", errno);
    int folder = open(folder_path, O_RDONLY | O_DIRECTORY | O_CLOEXEC);
    enum saved saved = folder < 0 ? unsaved(why, "its folder can't be opened", errno) : replace_in(folder, name, content, why);
    if (folder >= 0)
        (void)close(folder); /* nothing was written through it */
    free(folder_path);
    return saved;
}

/* The file is replaced where it is, behind any links. One that may not be written is not replaced either. */
static enum saved replace_file(const char *path, const uint8_t *bytes, size_t len, struct reason *why) {
    int old = open(path, O_WRONLY | O_CLOEXEC);
    if (old < 0)
        return unsaved(why, "it may not be written", errno);
    char *target = realpath(path, NULL);
    enum saved saved = target == NULL ? unsaved(why, "its place can't be found", errno)
                                      : replace(target, (struct content){bytes, len, old}, why);
    free(target);
    (void)close(old); /* nothing was written through it */
    return saved;
}

static enum saved write_as_it_stands(const char *path, const uint8_t *bytes, size_t len, struct reason *why) {
    int file = open(path, O_WRONLY | O_NOCTTY | O_CLOEXEC);
    if (file < 0)
        return unsaved(why, "it can't be opened", errno);
    if (!close_after(file, write_to_reader(file, bytes, len)))
        return unsaved(why, "it can't be written", errno);
    return SAVED;
}

static enum saved write_over(const char *path, const struct stat *there, const uint8_t *bytes, size_t len, struct reason *why) {
    const char *standard = standard_name(there);
    if (standard != NULL)
        return unsaved(why, strcmp(standard, "standard output") == 0 ? "it is standard output" : "it is standard error", 0);
    if (S_ISREG(there->st_mode))
        return replace_file(path, bytes, len, why);
    if (S_ISCHR(there->st_mode) || S_ISFIFO(there->st_mode))
        return write_as_it_stands(path, bytes, len, why);
    return unsaved(why, S_ISDIR(there->st_mode) ? "it is a folder" : "it is neither a file, a pipe nor a character device", 0);
}

enum saved save(const char *path, const uint8_t *bytes, size_t len, struct reason *why) {
    struct stat there;
    *why = (struct reason){NULL, 0};
    if (strcmp(path, "-") == 0)
        return write_whole(STDOUT_FILENO, bytes, len) ? SAVED : unsaved(why, "it can't be written", errno);
    if (path[0] == '\0')
        return unsaved(why, "its name is empty", 0);
    if (stat(path, &there) == 0)
        return write_over(path, &there, bytes, len, why);
    if (errno != ENOENT)
        return unsaved(why, "it can't be reached", errno);
    if (lstat(path, &there) == 0)
        return unsaved(why, "it is a link to nothing", 0);
    return replace(path, (struct content){bytes, len, -1}, why);
}

int tell_saved(const char *path, enum saved saved, struct reason why) {
    if (saved == SAVED)
        return DONE;
    say_reason(strcmp(path, "-") == 0 ? "standard output" : path,
               saved == UNSYNCED ? "written, but a power cut may undo it" : "not written", why);
    return TROUBLE;
}
