/* Open files: written whole, closed, and told apart from standard output and error. Where a call fails, errno says why. */
#ifndef DESCRIPTORS_H
#define DESCRIPTORS_H

#include <stdbool.h>
#include <stddef.h>
#include <stdint.h>
#include <sys/stat.h>

/* All of the bytes, in as many writes as it takes. */
bool write_whole(int file, const uint8_t *bytes, size_t len);

/* The same to a pipe or a device. A reader that has gone is an error like any other, and not the end of the program. */
bool write_to_reader(int file, const uint8_t *bytes, size_t len);

/* Closes the file whatever came before and keeps the first failure. */
bool close_after(int file, bool good);

/* "standard output" or "standard error" where that is the very file, else null. The null device, which keeps nothing, is neither.
 */
const char *standard_name(const struct stat *file);

/* Takes the places of standard input, output and error where they are closed, so that no other file comes to stand there; what is
 * read or written there still fails. */
void hold_standard_places(void);

#endif
