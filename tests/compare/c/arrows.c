/* Prints the numbers that include/display.h names and how many entries its table has; answers at the ends of what the functions take; and for each
 * two differences, in the order of the table, its entry, the arrow at a pitch of 1 from 0, 0, and its glyph. */
#include <stdio.h>

#include "display.h"

int main(void)
{
    printf("%d %d %d ", DISPLAY_HERE, DISPLAY_BAD_PITCH, DISPLAY_TOO_FAR);
    printf("%d %d %d ", DISPLAY_ARROW_COUNT, DISPLAY_ARROW_ROW, DISPLAY_ARROW_LIMIT);
    printf("%zu\n", sizeof DISPLAY_ARROWS / sizeof DISPLAY_ARROWS[0]);
    printf("%u ", display_arrow(INT16_MIN, INT16_MAX, INT16_MIN, INT16_MAX, INT32_MIN));
    printf("%u ", display_arrow(INT16_MIN, INT16_MAX, INT16_MIN, INT16_MAX, INT32_MAX));
    printf("%u ", display_arrow(INT16_MIN, INT16_MIN, INT16_MAX, INT16_MAX, 1000));
    printf("%c\n", display_glyph(UINT32_MAX));
    for (int dy = -DISPLAY_ARROW_LIMIT; dy <= DISPLAY_ARROW_LIMIT; dy++)
        for (int dx = -DISPLAY_ARROW_LIMIT; dx <= DISPLAY_ARROW_LIMIT; dx++) {
            int place = DISPLAY_ARROW_ROW * (dy + DISPLAY_ARROW_LIMIT) + (dx + DISPLAY_ARROW_LIMIT);
            unsigned arrow = display_arrow(0, 0, (int16_t)dx, (int16_t)dy, 1);

            printf("%d %u %c\n", DISPLAY_ARROWS[place], arrow, display_glyph(arrow));
        }
    return 0;
}
