/* Files written without losing what was there. */
#ifndef SAVE_H
#define SAVE_H

#include <stdbool.h>
#include <stddef.h>
#include <stdint.h>

#include "reason.h"

/* Written; written, but its folder could not be synced, so that a power cut may bring the old file back; or not written. */
enum saved { SAVED, UNSYNCED, UNSAVED };

/* Writes the bytes to a new file beside the target, gives it the target's owner, group, mode and access list, syncs it and gives
 * it the target's name. Where any of this fails, the old file stands and the new one is gone. The file behind standard output or
 * error is refused. `-` is standard output; a pipe or a character device, which holds nothing to lose, is written as it stands.
 */
enum saved save(const char *path, const uint8_t *bytes, size_t len, struct reason *why);

/* Says what became of the file, unless all is well, and gives the exit status. */
int tell_saved(const char *path, enum saved saved, struct reason why);

#endif
