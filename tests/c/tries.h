/* The groups of cases. */
#ifndef TRIES_H
#define TRIES_H

#include <stdint.h>

#include "layout.h"

/* Kinds of messages and actions of steps (document 01, "The block", "The step list"). */
enum { INTRODUCTION = 1, REMOVE_LEFT = 2, REMOVE_RIGHT = 3 };
enum { TIMEOUT = 1, DELIVER = 2, EXIT = 3 };

/* The table of "The printed listing": 3 (right 5), 5 (left 3, right 9, bag i7), 7 (no neighbours), 9 (left 5), all staying. */
enum { EXAMPLE = 4 * BLOCK };
void put_example(uint8_t *table);

void try_runs(void);
void try_refusals(void);
void try_stops(void);
void try_allowed(void);
void try_questions(void);
void try_roll_call(void);
void try_views(void);
void try_sites(void);
void try_lasting(void);

/* The questions of tests/questions.txt about the tables of cases.bin: one case for each table. */
void try_stored(const char *cases, const char *questions);

#endif
