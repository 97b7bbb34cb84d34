/* Cases: each is named, expects something, and counts once, however often it is called with its bytes at other places. */
#ifndef CASES_H
#define CASES_H

/* From here on this case is at hand; the one before is counted. */
void begin_case(const char *what);

void expect(int holds, const char *what);

/* Counts the last case, prints 'N passed, M failed' and gives the status of the program. */
int end_cases(void);

/* Status of a program that touched a page that it may not. */
enum { TOUCHED = 3 };

/* From here on a touched page stops the program with that status, and the case at hand is told. */
void watch_pages(void);

#endif
