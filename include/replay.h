/* Lists of calls on a deck, for C and C++, on x86-64 with the System V calling convention (Linux). Link with
 * target/staticlib/libreplay.a (make replay_library). A call takes no heap and keeps nothing; a thread with REPLAY_STACK bytes of stack
 * is enough for it. */
#ifndef REPLAY_H
#define REPLAY_H

#include <stddef.h>
#include <stdint.h>

#ifdef __cplusplus
extern "C" {
#endif

/* The longest deck file, in bytes: a buffer of this size is never too short. */
#define REPLAY_LONGEST 856

/* The shortest deck file: an answer below this is the number of a refusal. */
#define REPLAY_SHORTEST 30

/* Stack for a thread that makes a call, in bytes; the call itself takes some 190,000. */
#define REPLAY_STACK 212992

/* The bytes of a call. */
#define REPLAY_CALL 12

/* Makes a list of calls on the deck of a file, or on an empty deck where file_len is 0, and writes the deck file that they leave
 * into out. A call is twelve bytes:
 *   0      its number: 0 adds a pin at x, y; 1 withdraws the pin there; 2 is a round; 3 a run to the end; 4 sets the tail length
 *   1      the kind of the pin that call 0 adds: 0 a sensor, 1 a display, 2 a lane controller; the call is refused where it is
 *          above 2. Unused in calls 1 to 4: zero
 *   2 3    a storey and a spare byte, unused today: zeros
 *   4      x, a 32-bit two's complement number, little-endian; in call 4 the tail length in centimetres, without sign: the spare
 *          cable at each end of every run, 0 to 500; the call is refused where it is above 500
 *   8      y, as x; unused are y of call 4, and x and y of calls 2 and 3: zeros
 * The tail length is not filed: the deck of a file has 0, and the file that is written does not show it. Lists of calls 0 to 4 with
 * zeros in the unused bytes keep their meaning for good. Today a call of any other number does nothing, unused bytes are not looked
 * at, and fewer than twelve bytes at the end are no call; what other numbers, and other bytes in the unused places, mean may be
 * settled later. A call that is refused leaves the deck, and the next one follows.
 *
 * Returns how many bytes it wrote, 30 at least, or the number of a refusal:
 *   1  fewer than 30 or more than 856 bytes, not DECK, or neither 3 nor 4 sections
 *   2  fewer bytes than the table of the sections takes, or an offset or a length that the format does not have
 *   3  the length of pins or taps is no multiple of 4, or that of runs none of 2
 *   4  more than 64 pins
 *   5  a coordinate that is out of range, points that do not rise, or a tap on a pin
 *   6  not plain, and no sound deck of these points has these runs
 *  12  out is too short for the file
 *  15  kinds: one above 2, more or fewer than pins, or neither a display (1) nor a lane controller (2) among them
 * A refusal leaves every byte of out as it was; a success leaves those past the length returned. out must overlap neither file nor
 * calls. A pointer may be NULL where its length is 0. */
size_t replay_calls(const uint8_t *file, size_t file_len, const uint8_t *calls, size_t calls_len, uint8_t *out, size_t out_len);

#ifdef __cplusplus
}
#endif

#endif
