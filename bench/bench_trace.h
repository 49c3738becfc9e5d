/* The static library of crates/bench_trace. A call plays a whole trace on a cache, or a whole batch on one of its parts. */
#ifndef MOKA_TRACE_H
#define MOKA_TRACE_H

#include <stdbool.h>
#include <stddef.h>
#include <stdint.h>

/* Value of a capacity or duration that isn't set. */
#define MOKA_TRACE_UNLIMITED UINT64_MAX

/* Settings of a cache, and the moments of its operations. Durations and moments are in nanoseconds. */
struct bench_trace_settings {
    uint64_t capacity;
    uint64_t time_to_live;
    uint64_t time_to_idle;
    uint64_t start; /* moment of the first operation */
    uint64_t tick;  /* time from one operation to the next */
    bool is_weighed; /* true if an entry weighs its value instead of 1 */
    bool is_std_hashed; /* true if keys are hashed by the default hash state instead of one multiplication */
    uint8_t window_share; /* in percent of the capacity; the core has no window */
    uint8_t protected_share; /* in percent of the main part; the core has no segments */
    bool is_adaptive;        /* true if the window adapts to the calls; the core has no window */
};

enum bench_trace_kind {
    MOKA_TRACE_GET = 0,
    MOKA_TRACE_INSERT = 1,
    MOKA_TRACE_READ_THROUGH = 2, /* a get, and an insert if it misses */
    MOKA_TRACE_GET_AND_INSERT = 3,
    MOKA_TRACE_REMOVE_AND_INSERT = 4,
};

struct bench_trace_operation {
    uint64_t key;
    uint32_t value;
    uint32_t kind;
};

struct bench_trace_outcome {
    uint64_t hits;
    uint64_t checksum; /* sum of the found values, modulo 2^64 */
    uint64_t entries;
    uint64_t weight;
};

enum bench_trace_status {
    MOKA_TRACE_DONE = 0,
    MOKA_TRACE_OUT_OF_MEMORY = 1,
    MOKA_TRACE_UNKNOWN_KIND = 2,
    MOKA_TRACE_SHARE_TOO_LARGE = 3,
};

/*
 * Builds a cache, makes the operations in turn, and drops the cache. Returns a bench_trace_status; unless it is
 * MOKA_TRACE_DONE, the outcome is unchanged. No pointer may be null, not even that of zero operations.
 */
uint32_t bench_trace_play(const struct bench_trace_settings *settings, const struct bench_trace_operation *operations,
                          size_t count, struct bench_trace_outcome *outcome);

/*
 * Plays the operations on a core of the shared cache, by whole calls of one caller, and ends with a whole maintenance. An insert
 * allocates its key and its value, and a removal allocates its key. The rest is as for bench_trace_play.
 */
uint32_t bench_trace_play_core(const struct bench_trace_settings *settings, const struct bench_trace_operation *operations,
                               size_t count, struct bench_trace_outcome *outcome);

/*
 * Makes a sketch for a capacity, counts all hashes `counts` times, and then reads them `reads` times. `sum` gets the sum of the
 * frequencies that were read. This call and those below return a bench_trace_status. Sums are modulo 2^64, and unchanged unless
 * the status is MOKA_TRACE_DONE. No pointer may be null.
 */
uint32_t bench_trace_sketch(uint32_t capacity, const uint64_t *hashes, size_t hash_count, size_t counts, size_t reads,
                            uint64_t *sum);

enum bench_trace_aging_load {
    MOKA_TRACE_IN_LANES = 0, /* by the loop that the sketch uses */
    MOKA_TRACE_WORD_BY_WORD = 1,
};

/*
 * Makes a table of these words, and ages it `agings` times, from a size of 2^32 - 1. `sum` gets a sum of the sizes that follow, which
 * depends on their order. More than 2^30 words return MOKA_TRACE_UNKNOWN_KIND.
 */
uint32_t bench_trace_aging(uint32_t load, const uint64_t *words, size_t word_count, size_t agings, uint64_t *sum);

enum bench_trace_list_load {
    MOKA_TRACE_MOVE = 0, /* looks up the nodes with the picked numbers, and moves them to the back */
    MOKA_TRACE_FILL_AND_EMPTY = 1,
    MOKA_TRACE_TAKE_TURNS = 2, /* pops the first element of a full list, and pushes it at the back */
};

/*
 * Makes a list with capacity for `nodes` nodes, and plays a load on it `rounds` times. `sum` gets the sum of the popped elements,
 * or the number of moves, plus a sum of the remaining elements that depends on their order.
 */
uint32_t bench_trace_list(uint32_t load, size_t nodes, const size_t *picks, size_t pick_count, size_t rounds, uint64_t *sum);

enum bench_trace_index_load {
    MOKA_TRACE_FIND = 0,
    MOKA_TRACE_FIND_AND_REPLACE = 1, /* removes each id that is found, and adds it again */
};

/*
 * Makes an index in which the id of each hash is its position in `hashes`. Plays a load on it `rounds` times, with all hashes of
 * `sought`. `sum` gets the sum of the ids that were found. `hashes` may have no duplicates.
 */
uint32_t bench_trace_index(uint32_t load, const uint64_t *hashes, size_t hash_count, const uint64_t *sought,
                           size_t sought_count, size_t rounds, uint64_t *sum);

/* Plays the loads of bench_trace_index on std's map from hashes to ids. */
uint32_t bench_trace_index_by_map(uint32_t load, const uint64_t *hashes, size_t hash_count, const uint64_t *sought,
                                  size_t sought_count, size_t rounds, uint64_t *sum);

#endif
