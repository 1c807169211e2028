/* Plans deck files changed at random. Arguments: the number of rounds, then the files to begin with. What is written for a file that
 * is taken is changed further. The same arguments give the same run. Stops with 1 where some answer never came. */
#include <sanitizer/common_interface_defs.h>
#include <stdio.h>
#include <stdlib.h>
#include <string.h>

#include "layout.h"
#include "mutate.h"

/* The most files that are kept; the last of those given is followed by the ones written. */
#define MOST_FILES 256

static struct file files[MOST_FILES];
static size_t given, count;

/* The file of this round, for the message where the program is stopped. */
static struct file current;

/* The refusals of a file. */
static const int refusals[] = {1, 2, 3, 4, 5, 6, 15};

/* How many files got each refusal, and how many were taken, without kinds and with them, full ones and plain ones. */
static size_t refused[PLANNER_SHORTEST], taken[2][2];

static void print_current(void)
{
    fprintf(stderr, "stopped at the file ");
    print_file(current.bytes, current.length);
}

static int load(const char *path)
{
    FILE *from = fopen(path, "rb");

    if (from == NULL || given == MOST_FILES / 2)
        return 0;
    files[given].length = fread(files[given].bytes, 1, MOST_BYTES, from);
    fclose(from);
    return files[given++].length > 0;
}

/* Keeps a file that was written; of the long ones, which take long to plan, one in sixteen. */
static void keep(const uint8_t *bytes, size_t length)
{
    size_t at;

    if (length >= 200 && below(16) > 0)
        return;
    at = count < MOST_FILES ? count++ : given + below((uint32_t)(MOST_FILES - given));
    memcpy(files[at].bytes, bytes, length);
    files[at].length = length;
}

static void one_round(void)
{
    uint8_t written[PLANNER_LONGEST];
    size_t answer;
    int plain;

    current = files[below((uint32_t)count)];
    mutate(&current, &files[below((uint32_t)count)]);
    answer = check_plan(current.bytes, current.length, written);
    if (answer < PLANNER_SHORTEST) {
        refused[answer]++;
        return;
    }
    plain = section_length(current.bytes, TAPS) == 0 && section_length(current.bytes, RUNS) == 0;
    taken[current.bytes[COUNT] == WITH_KINDS][plain]++;
    keep(written, answer);
}

/* Prints how often an answer came, and returns whether it did. */
static int came(const char *what, int number, size_t times)
{
    printf("%s %d: %zu\n", what, number, times);
    return times > 0;
}

int main(int argc, char **argv)
{
    long rounds = argc > 1 ? atol(argv[1]) : 0;
    int all = 1;

    for (int i = 2; i < argc; i++)
        if (!load(argv[i]))
            return fprintf(stderr, "cannot read %s\n", argv[i]), 2;
    if (rounds <= 0 || given == 0)
        return fprintf(stderr, "rounds and files are needed\n"), 2;
    count = given;
    __sanitizer_set_death_callback(print_current);
    for (long i = 0; i < rounds; i++)
        one_round();
    for (size_t i = 0; i < sizeof refusals / sizeof *refusals; i++)
        all &= came("refused", refusals[i], refused[refusals[i]]);
    for (int kinds = 0; kinds < 2; kinds++) {
        all &= came("full files taken, sections", WITHOUT_KINDS + kinds, taken[kinds][0]);
        all &= came("plain files taken, sections", WITHOUT_KINDS + kinds, taken[kinds][1]);
    }
    if (!all)
        fprintf(stderr, "an answer never came\n");
    return !all;
}
