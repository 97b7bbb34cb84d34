/* Why a thing failed: what was tried, in words, and the error of the system, 0 where it is none of the system's. */
#ifndef REASON_H
#define REASON_H

#include <stdbool.h>

struct reason {
    const char *what;
    int error;
};

/* Sets the reason and gives false. */
static inline bool because(struct reason *why, const char *what, int error) {
    *why = (struct reason){what, error};
    return false;
}

#endif
