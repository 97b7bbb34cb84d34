/* A new file beside the one that it will replace. As long as it stands under its own name, the signals INT, TERM and HUP remove
 * it before they end the program. Where a call fails, errno says why. One such file stands at a time. */
#ifndef TEMPORARY_H
#define TEMPORARY_H

#include <stdbool.h>
#include <sys/stat.h>

enum { TEMPORARY_NAME = 24 }; /* `.station-line-` and six letters, with the end of the string */

struct temporary {
    int folder, file;
    char name[TEMPORARY_NAME];
};

/* Makes an empty file of that mode in the folder, which stays open until the file is renamed or dropped. */
bool temporary_make(struct temporary *temporary, int folder, mode_t mode);

/* Gives it another name in its folder, whatever stood under that name. */
bool temporary_rename(const struct temporary *temporary, const char *name);

/* Removes it. */
bool temporary_drop(const struct temporary *temporary);

#endif
