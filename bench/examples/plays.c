/* Plays loads on both caches, the list, the sketch and the index: `dev/memcheck` runs it under valgrind. */
#include "bench_trace.h"
#include <stdio.h>

enum { COUNT = 20000, NODES = 500 };

static uint64_t state = 1;

/* Returns the next pseudorandom number. */
static uint64_t next(void) {
    state = state * 6364136223846793005u + 1442695040888963407u;
    return state >> 33;
}

/* Plays the operations on a cache with these settings. */
static uint32_t plays(uint32_t (*play)(const struct bench_trace_settings *, const struct bench_trace_operation *, size_t, struct bench_trace_outcome *),
                      struct bench_trace_settings settings, const struct bench_trace_operation *operations) {
    struct bench_trace_outcome outcome;
    uint32_t status = play(&settings, operations, COUNT, &outcome);
    printf("%llu hits, %llu entries\n", (unsigned long long)outcome.hits, (unsigned long long)outcome.entries);
    return status;
}

int main(void) {
    static struct bench_trace_operation operations[COUNT];
    static size_t picks[COUNT];
    static uint64_t hashes[NODES], words[1000];
    for (size_t i = 0; i < COUNT; i++) {
        operations[i] = (struct bench_trace_operation){next() % 2000, (uint32_t)(next() % 9), (uint32_t)(next() % 4)};
        picks[i] = next() % NODES;
    }
    for (size_t i = 0; i < NODES; i++)
        hashes[i] = i * 0x9e3779b97f4a7c15u;
    for (size_t i = 0; i < 1000; i++)
        words[i] = next() * next();
    struct bench_trace_settings plain = {300, MOKA_TRACE_UNLIMITED, MOKA_TRACE_UNLIMITED, 0, 0, false, false, 1, 0, false};
    struct bench_trace_settings expiring = {300, 5000, 2000, 0, 1, true, true, 1, 0, false};
    struct bench_trace_settings segmented = {300, MOKA_TRACE_UNLIMITED, MOKA_TRACE_UNLIMITED, 0, 0, false, false, 20, 80, false};
    uint32_t failed = 0;
    failed |= plays(bench_trace_play, plain, operations) | plays(bench_trace_play, expiring, operations);
    failed |= plays(bench_trace_play, segmented, operations);
    failed |= plays(bench_trace_play_core, plain, operations) | plays(bench_trace_play_core, expiring, operations);
    uint64_t sum = 0;
    for (uint32_t load = MOKA_TRACE_MOVE; load <= MOKA_TRACE_TAKE_TURNS; load++) {
        failed |= bench_trace_list(load, NODES, picks, COUNT, 3, &sum);
        printf("list: %llu\n", (unsigned long long)sum);
    }
    failed |= bench_trace_sketch(1000, hashes, NODES, 40, 1, &sum);
    failed |= bench_trace_aging(MOKA_TRACE_IN_LANES, words, 1000, 3, &sum);
    failed |= bench_trace_index(MOKA_TRACE_FIND_AND_REPLACE, hashes, NODES, hashes, NODES, 3, &sum);
    return (int)failed;
}
