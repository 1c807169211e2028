/* Where the sections of a deck file stand. */
#ifndef LAYOUT_H
#define LAYOUT_H

#include <stddef.h>
#include <stdint.h>

/* The sections of a file. The kinds may be missing; there are WITHOUT_KINDS sections then, else WITH_KINDS. */
enum section { PINS, TAPS, RUNS, KINDS };
#define WITHOUT_KINDS KINDS
#define WITH_KINDS (KINDS + 1)

/* Where the count of sections stands. */
#define COUNT 4

/* The bytes in front of the first of some sections: the four letters, the count, and a pair of offset and length for each. The pair
 * of a section stands where a header of the sections in front of it would end. */
#define PAIR 8
#define HEADER_OF(sections) (COUNT + 2 + PAIR * (size_t)(sections))

/* The number of 32 bits at a place. */
static inline uint32_t number_at(const uint8_t *bytes)
{
    return bytes[0] | (uint32_t)bytes[1] << 8 | (uint32_t)bytes[2] << 16 | (uint32_t)bytes[3] << 24;
}

/* Writes a number of 32 bits. */
static inline void put_number(uint8_t *bytes, uint32_t number)
{
    for (int i = 0; i < 4; i++)
        bytes[i] = (uint8_t)(number >> 8 * i);
}

/* The length of a section, by its pair in the header. */
static inline uint32_t section_length(const uint8_t *bytes, enum section section)
{
    return number_at(bytes + HEADER_OF(section) + 4);
}

/* The sections of a file: how many, and the length of each. */
struct parts {
    unsigned count;
    size_t lengths[WITH_KINDS];
};

/* Where a section starts. */
static inline size_t start_of(const struct parts *parts, enum section section)
{
    size_t at = HEADER_OF(parts->count);

    for (unsigned i = 0; i < section; i++)
        at += parts->lengths[i];
    return at;
}

#endif
