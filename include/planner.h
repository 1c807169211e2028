/* The cable planner for C and C++, on x86-64 with the System V calling convention (Linux). Link with target/staticlib/libplanner.a
 * (make library). A call takes no heap and keeps nothing; a thread with PLANNER_STACK bytes of stack is enough for it. */
#ifndef PLANNER_H
#define PLANNER_H

#include <stddef.h>
#include <stdint.h>

#ifdef __cplusplus
extern "C" {
#endif

/* The longest deck file, in bytes: a buffer of this size is never too short. */
#define PLANNER_LONGEST 856

/* The shortest deck file: an answer below this is the number of a refusal. */
#define PLANNER_SHORTEST 30

/* Stack for a thread that makes a call, in bytes; the call itself takes some 180,000. */
#define PLANNER_STACK 196608

/* Reads a deck file, runs to the end and writes the deck file into out. Returns how many bytes it wrote, 30 at least, or the number of
 * a refusal:
 *   1  fewer than 30 or more than 856 bytes, not DECK, or neither 3 nor 4 sections
 *   2  fewer bytes than the table of the sections takes, or an offset or a length that the format does not have
 *   3  the length of pins or taps is no multiple of 4, or that of runs none of 2
 *   4  more than 64 pins
 *   5  a coordinate that is out of range, points that do not rise, or a tap on a pin
 *   6  not plain, and no sound deck of these points has these runs
 *  12  out is too short for the file
 *  15  kinds: one above 2, more or fewer than pins, or neither a display (1) nor a lane controller (2) among them
 * A refusal leaves every byte of out as it was; a success leaves those past the length returned. file and out must not overlap. A
 * pointer may be NULL where its length is 0. */
size_t planner_plan(const uint8_t *file, size_t file_len, uint8_t *out, size_t out_len);

#ifdef __cplusplus
}
#endif

#endif
