/* `run --trace`: a line for each step, with its number in the list, the step, and what it did or what it was missing. */
#ifndef TRACE_H
#define TRACE_H

#include <stddef.h>
#include <stdint.h>
#include <stdio.h>

/* Up to the first refused step and with it. The table is accepted, and the list is of a good length. Each step is a run of its
 * own over the table that the steps before it left. */
void print_trace(FILE *out, const uint8_t *table, size_t table_len, const uint8_t *steps, size_t steps_len);

#endif
