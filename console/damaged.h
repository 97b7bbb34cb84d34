/* `dump table --damaged`: what can be read of any bytes, block by block. */
#ifndef DAMAGED_H
#define DAMAGED_H

/* Prints, for each block, its place and its faults behind `#`, and then its station line, so that the text can be mended and
 * assembled; bytes that belong to no field in hex. Gives the exit status: done for an accepted table. */
int dump_damaged(const char *path);

#endif
