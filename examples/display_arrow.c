/* Prints the glyph that a display shows for a bay. Five arguments: the display's x and y, the bay's x and y, the pitch, in centimetres and in base
 * ten. Exits with 0, or with the number of the refusal (13 or 14), or with one of the two numbers below. */
#include <stdio.h>
#include <stdlib.h>
#include <string.h>

#include "display.h"

/* The arguments are no such numbers; the output could not be written. */
enum { NO_NUMBERS = 100, NOT_WRITTEN = 101 };

/* Whether the text is a number from least to most, and the number. A long has 64 bits here, and strtol gives its ends for what is beyond them. */
static int number(const char *text, long least, long most, long *n)
{
    char *end;

    *n = strtol(text, &end, 10);
    return end != text && text[strspn(text, "-0123456789")] == '\0' && *end == '\0' && *n >= least && *n <= most;
}

int main(int count, char **words)
{
    long places[4], pitch;
    uint32_t arrow;
    int right = count == 6;

    for (int i = 0; right && i < 4; i++)
        right = number(words[i + 1], INT16_MIN, INT16_MAX, &places[i]);
    if (!right || !number(words[5], INT32_MIN, INT32_MAX, &pitch)) {
        fputs("display_arrow DISPLAYX DISPLAYY BAYX BAYY PITCH\n", stderr);
        return NO_NUMBERS;
    }
    arrow = display_arrow((int16_t)places[0], (int16_t)places[1], (int16_t)places[2], (int16_t)places[3], (int32_t)pitch);
    if (arrow > DISPLAY_HERE) {
        fprintf(stderr, "refused %u\n", (unsigned)arrow);
        return (int)arrow;
    }
    if (printf("%c\n", display_glyph(arrow)) < 0 || fflush(stdout) != 0) {
        perror("not written");
        return NOT_WRITTEN;
    }
    return 0;
}
