/* What must hold of planner_plan for any bytes. */
#ifndef CHECK_H
#define CHECK_H

#include <stddef.h>
#include <stdint.h>

#include "planner.h"

/* The most bytes that are handed to the planner as a file. */
#define MOST_BYTES 1024

/* Plans the bytes with several buffers, and stops the program where something is wrong. Returns the answer with room for every
 * file, which stands at the start of `written` then. */
size_t check_plan(const uint8_t *file, size_t length, uint8_t written[PLANNER_LONGEST]);

/* Writes bytes to standard error, two hexadecimal digits each. */
void print_file(const uint8_t *file, size_t length);

#endif
