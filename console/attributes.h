/* The access list and the user's attributes of a file, where the system has them. */
#ifndef ATTRIBUTES_H
#define ATTRIBUTES_H

#include <stdbool.h>

/* Gives the new file those of the old one, and takes from it an access list that the old one has not, as one that came from its
 * folder. False with errno set where one can't be kept. Attributes of other kinds belong to the system and are left to it. */
bool keep_attributes(int new_file, int old_file);

#endif
