#define _POSIX_C_SOURCE 200809L
#include "temporary.h"

#include <errno.h>
#include <fcntl.h>
#include <signal.h>
#include <stdint.h>
#include <stdio.h>
#include <string.h>
#include <time.h>
#include <unistd.h>

#define ENDINGS ((size_t)3)
static const int endings[ENDINGS] = {SIGINT, SIGTERM, SIGHUP};

/* What the handler removes; it is changed only while the three signals are held back. */
static volatile sig_atomic_t standing;
static struct temporary held;
static struct sigaction before[ENDINGS];

static sigset_t ending_signals(void) {
    sigset_t set;
    (void)sigemptyset(&set);
    for (size_t k = 0; k < ENDINGS; k++)
        (void)sigaddset(&set, endings[k]);
    return set;
}

static void hold_signals(sigset_t *mask) {
    sigset_t set = ending_signals();
    (void)sigprocmask(SIG_BLOCK, &set, mask);
}

/* Lets them through again, and with errno as it was. */
static void release_signals(const sigset_t *mask) {
    int first = errno;
    (void)sigprocmask(SIG_SETMASK, mask, NULL);
    errno = first;
}

/* The signal then ends the program as if it had not been caught. */
static void remove_and_end(int number) {
    struct sigaction plain = {0};
    if (standing)
        (void)unlinkat(held.folder, held.name, 0);
    plain.sa_handler = SIG_DFL;
    (void)sigaction(number, &plain, NULL);
    (void)raise(number);
}

/* A signal that is ignored, as HUP is under nohup, stays so. */
static void stand(const struct temporary *temporary) {
    struct sigaction ours = {0};
    ours.sa_handler = remove_and_end;
    ours.sa_mask = ending_signals();
    held = *temporary;
    standing = 1;
    for (size_t k = 0; k < ENDINGS; k++)
        if (sigaction(endings[k], NULL, &before[k]) == 0 && before[k].sa_handler != SIG_IGN)
            (void)sigaction(endings[k], &ours, NULL);
}

static void stand_no_more(void) {
    int first = errno;
    for (size_t k = 0; k < ENDINGS; k++)
        (void)sigaction(endings[k], &before[k], NULL);
    standing = 0;
    errno = first;
}

/* A name that hardly any other program takes; one that is taken is not touched, and another is tried. */
static void choose_name(char *name, unsigned attempt) {
    static const char letters[] = "abcdefghijklmnopqrstuvwxyz234567";
    struct timespec now = {0, 0};
    (void)clock_gettime(CLOCK_REALTIME, &now);
    uint64_t mixed = ((uint64_t)now.tv_nsec + attempt) * 6364136223846793005u + (uint64_t)getpid() * 1442695040888963407u;
    int len = snprintf(name, TEMPORARY_NAME, ".station-line-");
    for (int k = 0; k < 6; k++, mixed /= 32)
        name[len + k] = letters[mixed >> 16 & 31u];
    name[len + 6] = '\0';
}

bool temporary_make(struct temporary *temporary, int folder, mode_t mode) {
    sigset_t mask;
    hold_signals(&mask);
    temporary->folder = folder;
    temporary->file = -1;
    errno = EEXIST;
    for (unsigned attempt = 0; attempt < 100 && temporary->file < 0 && errno == EEXIST; attempt++) {
        choose_name(temporary->name, attempt);
        temporary->file = openat(folder, temporary->name, O_WRONLY | O_CREAT | O_EXCL | O_CLOEXEC, mode);
    }
    if (temporary->file >= 0)
        stand(temporary);
    release_signals(&mask);
    return temporary->file >= 0;
}

bool temporary_rename(const struct temporary *temporary, const char *name) {
    sigset_t mask;
    hold_signals(&mask);
    bool renamed = renameat(temporary->folder, temporary->name, temporary->folder, name) == 0;
    if (renamed)
        stand_no_more();
    release_signals(&mask);
    return renamed;
}

bool temporary_drop(const struct temporary *temporary) {
    sigset_t mask;
    hold_signals(&mask);
    bool dropped = unlinkat(temporary->folder, temporary->name, 0) == 0;
    stand_no_more();
    release_signals(&mask);
    return dropped;
}
