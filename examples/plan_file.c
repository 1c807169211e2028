/* Plans a deck file: standard input to standard output. Exits with 0, or with the number of the refusal (planner.h has them), or with one
 * of the two numbers below. */
#include <stdio.h>

#include "planner.h"

/* The input could not be read; the output could not be written. */
enum { NOT_READ = 100, NOT_WRITTEN = 101 };

int main(void)
{
    uint8_t file[PLANNER_LONGEST + 1];
    uint8_t out[PLANNER_LONGEST];
    size_t length = fread(file, 1, sizeof file, stdin);
    size_t answer;

    if (ferror(stdin)) {
        perror("not read");
        return NOT_READ;
    }
    answer = planner_plan(file, length, out, sizeof out);
    if (answer < PLANNER_SHORTEST) {
        fprintf(stderr, "refused %zu\n", answer);
        return (int)answer;
    }
    if (fwrite(out, 1, answer, stdout) != answer || fflush(stdout) != 0) {
        perror("not written");
        return NOT_WRITTEN;
    }
    return 0;
}
