#define _POSIX_C_SOURCE 200809L
#include "cases.h"

#include <signal.h>
#include <stdio.h>
#include <stdlib.h>
#include <string.h>
#include <unistd.h>

static char at_hand[160];
static unsigned expected, broken, passed, failed;

/* A case that expects nothing has shown nothing. */
static void count_case(void) {
    if (at_hand[0] == '\0')
        return;
    if (expected == 0)
        printf("failed: %s: nothing is expected of it\n", at_hand);
    if (expected == 0 || broken > 0)
        failed++;
    else
        passed++;
}

void begin_case(const char *what) {
    count_case();
    (void)snprintf(at_hand, sizeof at_hand, "%s", what);
    expected = broken = 0;
}

void expect(int holds, const char *what) {
    expected++;
    if (!holds) {
        broken++;
        printf("failed: %s: %s\n", at_hand, what);
    }
}

int end_cases(void) {
    count_case();
    printf("%u passed, %u failed\n", passed, failed);
    return failed > 0 || passed == 0;
}

static void tell(const char *text) {
    ssize_t written = write(STDOUT_FILENO, text, strlen(text));
    (void)written;
}

static void touched(int number) {
    (void)number;
    tell("stopped at a page that may not be touched: ");
    tell(at_hand);
    tell("\n");
    _exit(TOUCHED);
}

void watch_pages(void) {
    struct sigaction action;
    memset(&action, 0, sizeof action);
    action.sa_handler = touched;
    if (sigaction(SIGSEGV, &action, NULL) != 0 || sigaction(SIGBUS, &action, NULL) != 0) {
        perror("sigaction");
        exit(2);
    }
}
