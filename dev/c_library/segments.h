/* Helpers of segments.c and segments_threads.c. */
#include "mini_moka_segments.h"
#include <stdio.h>

/* Prints the condition with its line and exits with status 1, if it is false. */
#define CHECK(holds) check((holds), #holds, __LINE__)

static void check(bool holds, const char *what, int line) {
    if (!holds) {
        fprintf(stderr, "line %d: %s\n", line, what);
        exit(1);
    }
}

/* Returns the next pseudorandom number. */
static uint64_t next_number(uint64_t *state) {
    uint64_t number = *state += UINT64_C(0x9e3779b97f4a7c15);
    number = (number ^ (number >> 30)) * UINT64_C(0xbf58476d1ce4e5b9);
    return number ^ (number >> 31);
}

/* Returns the number that mini_moka_segments_count or mini_moka_segments_weight writes. */
static uint64_t number_of(struct mini_moka_segments *cache, uint32_t (*call)(struct mini_moka_segments *, uint64_t *)) {
    uint64_t number = 0;
    CHECK(call(cache, &number) == MINI_MOKA_DONE);
    return number;
}
