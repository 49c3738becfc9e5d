/* Plays traces and batches whose outcomes were worked out by hand, and reports those that differ: `dev/memcheck` runs it. */
#include "bench_trace.h"
#include <inttypes.h>
#include <stdio.h>
#include <string.h>

typedef uint32_t play(const struct bench_trace_settings *, const struct bench_trace_operation *, size_t, struct bench_trace_outcome *);

struct trace {
    const char *name;
    play *play;
    struct bench_trace_settings settings;
    const struct bench_trace_operation *operations;
    size_t count;
    uint32_t status;
    struct bench_trace_outcome outcome;
};

enum { TICK = 10 };

#define NONE MOKA_TRACE_UNLIMITED

static const struct bench_trace_outcome before = {9, 9, 9, 9};

/* Key 7 has the value 5 and then 6, key 8 has 4 and then 9. Three look-ups find 5, 4 and 5. */
static const struct bench_trace_operation each_kind[] = {
    {7, 5, MOKA_TRACE_INSERT},       {7, 0, MOKA_TRACE_GET},            {8, 4, MOKA_TRACE_READ_THROUGH},
    {8, 3, MOKA_TRACE_READ_THROUGH}, {7, 6, MOKA_TRACE_GET_AND_INSERT}, {8, 9, MOKA_TRACE_REMOVE_AND_INSERT},
};

/* An insert at moment 0, and gets at 10 and 20. */
static const struct bench_trace_operation looks[] = {{7, 5, MOKA_TRACE_INSERT}, {7, 0, MOKA_TRACE_GET}, {7, 0, MOKA_TRACE_GET}};

/* An insert, and an operation of an unknown kind. */
static const struct bench_trace_operation strange[] = {{7, 5, MOKA_TRACE_INSERT}, {7, 5, 5}};

/* At a capacity of one, key 8 is rejected when it was looked up only as often as 7, and then replaces it. Then 7 is rejected for the same reason. */
static const struct trace traces[] = {
    {"each kind", bench_trace_play, {NONE, NONE, NONE, 0, TICK, false, false, 1, 0, false}, each_kind, 6, MOKA_TRACE_DONE, {3, 14, 2, 2}},
    {"each kind on a core", bench_trace_play_core, {NONE, NONE, NONE, 0, TICK, false, false, 1, 0, false}, each_kind, 6, MOKA_TRACE_DONE, {3, 14, 2, 2}},
    {"weighed", bench_trace_play, {NONE, NONE, NONE, 0, TICK, true, false, 1, 0, false}, each_kind, 6, MOKA_TRACE_DONE, {3, 14, 2, 15}},
    {"std's hashes", bench_trace_play, {NONE, NONE, NONE, 0, TICK, false, true, 1, 0, false}, each_kind, 6, MOKA_TRACE_DONE, {3, 14, 2, 2}},
    {"one entry", bench_trace_play, {1, NONE, NONE, 0, TICK, false, false, 1, 0, false}, each_kind, 6, MOKA_TRACE_DONE, {1, 5, 1, 1}},
    {"time to live", bench_trace_play, {NONE, 20, NONE, 0, TICK, false, false, 1, 0, false}, looks, 3, MOKA_TRACE_DONE, {1, 5, 0, 0}},
    {"time to idle", bench_trace_play, {NONE, NONE, 20, 0, TICK, false, false, 1, 0, false}, looks, 3, MOKA_TRACE_DONE, {2, 10, 1, 1}},
    {"no such window", bench_trace_play, {NONE, NONE, NONE, 0, TICK, false, false, 101, 0, false}, looks, 3, MOKA_TRACE_SHARE_TOO_LARGE, {9, 9, 9, 9}},
    {"no such segment", bench_trace_play, {NONE, NONE, NONE, 0, TICK, false, false, 1, 101, false}, looks, 3, MOKA_TRACE_SHARE_TOO_LARGE, {9, 9, 9, 9}},
    {"no kind", bench_trace_play, {NONE, NONE, NONE, 0, TICK, false, false, 1, 0, false}, strange, 2, MOKA_TRACE_UNKNOWN_KIND, {9, 9, 9, 9}},
};

/* Returns 1 and prints both values if they differ, else 0. */
static int differs(const char *name, uint64_t found, uint64_t wanted) {
    if (found != wanted)
        printf("%s: %" PRIu64 " instead of %" PRIu64 "\n", name, found, wanted);
    return found != wanted;
}

static int plays(const struct trace *trace) {
    struct bench_trace_outcome found = before;
    int wrong = differs(trace->name, trace->play(&trace->settings, trace->operations, trace->count, &found), trace->status);
    wrong += differs(trace->name, found.hits, trace->outcome.hits);
    wrong += differs(trace->name, found.checksum, trace->outcome.checksum);
    wrong += differs(trace->name, found.entries, trace->outcome.entries);
    return wrong + differs(trace->name, found.weight, trace->outcome.weight);
}

/* Ages nine words twice, with 15 in each counter. All 144 counters are odd both times, so the size is halved and reduced by 36: to 2147483611, and then to
 * 1073741769. */
static int ages(uint32_t load, uint32_t status, uint64_t wanted) {
    uint64_t words[9], sum = 9;
    memset(words, 0xff, sizeof words);
    return differs("aging", bench_trace_aging(load, words, 9, 2, &sum), status) + differs("aging", sum, wanted);
}

/* Counts hash 1 four times and reads it twice, and counts hash 2 twice and reads it once. Hashes that differ modulo 4 share no counter. */
static int counts(void) {
    const uint64_t hashes[] = {1, 1, 2};
    uint64_t sum = 9;
    return differs("counts", bench_trace_sketch(128, hashes, 3, 2, 1, &sum), MOKA_TRACE_DONE) + differs("counts", sum, 10);
}

int main(void) {
    const uint64_t aged = 31 * UINT64_C(2147483611) + 1073741769;
    int wrong = 0;
    for (size_t i = 0; i < sizeof traces / sizeof *traces; i++)
        wrong += plays(&traces[i]);
    wrong += counts();
    wrong += ages(MOKA_TRACE_IN_LANES, MOKA_TRACE_DONE, aged) + ages(MOKA_TRACE_WORD_BY_WORD, MOKA_TRACE_DONE, aged);
    wrong += ages(2, MOKA_TRACE_UNKNOWN_KIND, 9);
    printf("%d outcomes differ\n", wrong);
    return wrong != 0;
}
