/* Plans the longest deck and plays calls on it, on threads that have exactly the stack that the headers state. Exits with 0, or with 1
 * where an answer is no length. */
#include <pthread.h>
#include <stdio.h>
#include <stdlib.h>

#ifdef REPLAY
#include "replay.h"
#define LONGEST REPLAY_LONGEST
#define STACK REPLAY_STACK
#else
#include "planner.h"
#define LONGEST PLANNER_LONGEST
#define STACK PLANNER_STACK
#endif

static uint8_t file[1024];
static size_t length;

static void *call(void *answer)
{
    static uint8_t out[LONGEST];
#ifdef REPLAY
    static const uint8_t calls[48] = {2, [12] = 3, [24] = 2, [36] = 0, 1};
    *(size_t *)answer = replay_calls(file, length, calls, sizeof calls, out, sizeof out);
#else
    *(size_t *)answer = planner_plan(file, length, out, sizeof out);
#endif
    return NULL;
}

int main(void)
{
    size_t answer = 0;
    pthread_attr_t attributes;
    pthread_t thread;

    length = fread(file, 1, sizeof file, stdin);
    if (pthread_attr_init(&attributes) != 0 || pthread_attr_setstacksize(&attributes, STACK) != 0)
        return 2;
    if (pthread_create(&thread, &attributes, call, &answer) != 0 || pthread_join(thread, NULL) != 0)
        return 2;
    return answer < 30;
}
