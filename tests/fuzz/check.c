/* What must hold of planner_plan for any bytes:
 * - the answer is a refusal's number, or a length from PLANNER_SHORTEST up to the room; no file needs more than PLANNER_LONGEST;
 * - a refusal leaves every byte of the buffer, and a success every byte past the length;
 * - the answer is the same for a buffer of exactly that length, and 12 for one that is a byte shorter;
 * - a refusal for another reason is the same without a buffer;
 * - what is written is taken, and planned again gives the same bytes;
 * - what is written has as many sections as the file, with the same pins and kinds.
 *
 * The planner's library has no checks of addresses in it, and a sanitizer sees only what is compiled with it. So each file and
 * each buffer stands at the end of a page, or at the start of one, and the pages around may not be touched: one byte past the end
 * or before the start stops the program. The file's page may not be written. */
#define _DEFAULT_SOURCE
#include "check.h"

#include <stdio.h>
#include <stdlib.h>
#include <string.h>
#include <sys/mman.h>

#include "layout.h"

/* The size of a page. */
#define PAGE 4096

/* What stands in the page of a buffer. */
#define PATTERN(i) ((uint8_t)(167 * (i) + 13))

/* Where the bytes stand in their page. */
enum side { AT_START, AT_END };

/* The two pages: each lies between two that may not be touched. */
static uint8_t *file_page, *buffer_page;

/* The bytes that are checked, for the message. */
static const uint8_t *checked;
static size_t checked_length;

void print_file(const uint8_t *file, size_t length)
{
    for (size_t i = 0; i < length; i++)
        fprintf(stderr, "%02x", file[i]);
    fputc('\n', stderr);
}

static void demand(int holds, const char *what)
{
    if (holds)
        return;
    fprintf(stderr, "wrong: %s\n", what);
    print_file(checked, checked_length);
    abort();
}

static uint8_t *new_page(void)
{
    uint8_t *pages = mmap(NULL, 3 * PAGE, PROT_NONE, MAP_PRIVATE | MAP_ANONYMOUS, -1, 0);

    demand(pages != MAP_FAILED, "no memory");
    demand(mprotect(pages + PAGE, PAGE, PROT_READ | PROT_WRITE) == 0, "no page");
    return pages + PAGE;
}

static uint8_t *place(uint8_t *page, size_t length, enum side side)
{
    return side == AT_START ? page : page + PAGE - length;
}

/* Whether the planner has such a refusal. */
static int is_refusal(size_t answer)
{
    return (answer >= 1 && answer <= 6) || answer == 12 || answer == 15;
}

/* Plans bytes with a buffer of this room. The first `answer` bytes of the buffer are copied to `written`, and all others of its page
 * are as they were. */
static size_t plan(const uint8_t *file, size_t length, size_t room, enum side side, uint8_t *written)
{
    uint8_t *input = place(file_page, length, side);
    uint8_t *out = place(buffer_page, room, side);
    size_t answer, count, at;

    if (length > 0)
        memcpy(input, file, length);
    for (size_t i = 0; i < PAGE; i++)
        buffer_page[i] = PATTERN(i);
    demand(mprotect(file_page, PAGE, PROT_READ) == 0, "no page");
    answer = planner_plan(input, length, out, room);
    demand(mprotect(file_page, PAGE, PROT_READ | PROT_WRITE) == 0, "no page");

    demand(is_refusal(answer) || (answer >= PLANNER_SHORTEST && answer <= room), "the answer");
    count = answer < PLANNER_SHORTEST ? 0 : answer;
    memcpy(written, out, count);
    at = (size_t)(out - buffer_page);
    for (size_t i = 0; i < PAGE; i++)
        demand((i >= at && i < at + count) || buffer_page[i] == PATTERN(i), "a byte that was to stay");
    return answer;
}

/* The run to the end left the pins and their kinds, which stand at the start and at the end of the sections. */
static void check_pins(const uint8_t *file, size_t length, const uint8_t *written, size_t answer)
{
    size_t header = HEADER_OF(file[COUNT]);
    size_t pins = section_length(file, PINS);
    size_t kinds = file[COUNT] == WITH_KINDS ? pins / 4 : 0;

    demand(written[COUNT] == file[COUNT], "the number of sections");
    demand(section_length(written, PINS) == pins, "the number of pins");
    demand(memcmp(written + header, file + header, pins) == 0, "the pins");
    demand(memcmp(written + answer - kinds, file + length - kinds, kinds) == 0, "the kinds");
}

size_t check_plan(const uint8_t *file, size_t length, uint8_t written[PLANNER_LONGEST])
{
    uint8_t again[PLANNER_LONGEST];
    size_t answer;

    checked = file;
    checked_length = length;
    if (file_page == NULL) {
        file_page = new_page();
        buffer_page = new_page();
    }
    answer = plan(file, length, PLANNER_LONGEST, AT_END, written);
    demand(answer != 12, "the longest buffer is too short");
    if (answer < PLANNER_SHORTEST) {
        demand(plan(file, length, 0, AT_START, again) == answer, "the refusal without a buffer");
        return answer;
    }
    demand(length >= PLANNER_SHORTEST && length <= PLANNER_LONGEST, "the length of a file that is taken");
    check_pins(file, length, written, answer);
    demand(plan(file, length, answer, AT_START, again) == answer, "the answer with an exact buffer");
    demand(memcmp(again, written, answer) == 0, "the bytes with an exact buffer");
    demand(plan(file, length, answer - 1, AT_END, again) == 12, "the answer with a short buffer");
    demand(plan(written, answer, answer, AT_END, again) == answer, "the answer for what was written");
    demand(memcmp(again, written, answer) == 0, "the bytes for what was written");
    return answer;
}

/* The same for clang's libFuzzer, to which each answer is reported as a place reached. */
__attribute__((section("__libfuzzer_extra_counters"))) static uint8_t reached[PLANNER_LONGEST + 1];

int LLVMFuzzerTestOneInput(const uint8_t *file, size_t length);

int LLVMFuzzerTestOneInput(const uint8_t *file, size_t length)
{
    uint8_t written[PLANNER_LONGEST];

    if (length <= MOST_BYTES)
        reached[check_plan(file, length, written)] = 1;
    return 0;
}
