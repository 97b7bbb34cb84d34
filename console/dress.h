/* A new file made like the one that it replaces: owner, group, mode, access list and the user's attributes. */
#ifndef DRESS_H
#define DRESS_H

#include <stdbool.h>

#include "reason.h"

/* Whether the new file, which nobody but its owner may open so far, now has all of these of the old one. At no time may anyone
 * open it who may not open the old one. */
bool dress(int new_file, int old_file, struct reason *why);

#endif
