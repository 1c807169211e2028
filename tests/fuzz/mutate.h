/* Deck files changed at random. */
#ifndef MUTATE_H
#define MUTATE_H

#include "check.h"

/* A file, or any bytes. */
struct file {
    size_t length;
    uint8_t bytes[MOST_BYTES];
};

/* A random number below `end`, which is not 0. */
uint32_t below(uint32_t end);

/* Changes a file at random: some bytes, points, kinds or lengths. Then some of what the reader checks is put right again, so that
 * each check gets files that pass those before it. `other` is a file to take bytes from. */
void mutate(struct file *file, const struct file *other);

#endif
